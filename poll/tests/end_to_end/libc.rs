//! What the standard library has not: pseudo-terminals and signals.
#![allow(unsafe_code)]

use std::ffi::{c_char, c_int, CStr};
use std::fs::File;
use std::io;
use std::os::fd::AsRawFd;

extern "C" {
    fn grantpt(descriptor: c_int) -> c_int;
    fn unlockpt(descriptor: c_int) -> c_int;
    fn ptsname_r(descriptor: c_int, name: *mut c_char, length: usize) -> c_int;
    fn kill(process: c_int, signal: c_int) -> c_int;
}

pub const SIGINT: i32 = 2;
pub const SIGTERM: i32 = 15;

/// A new pseudo-terminal: the host's end, and the path of the device's.
pub fn pseudo_terminal() -> (File, String) {
    let host = File::options()
        .read(true)
        .write(true)
        .open("/dev/ptmx")
        .expect("a pseudo-terminal");
    let mut name = [0; 64];
    // SAFETY: the descriptor is open and the name has the length that is passed.
    let done = unsafe {
        let descriptor = host.as_raw_fd();
        grantpt(descriptor) == 0
            && unlockpt(descriptor) == 0
            && ptsname_r(descriptor, name.as_mut_ptr(), name.len()) == 0
    };
    assert!(done, "{}", io::Error::last_os_error());
    // SAFETY: ptsname_r has written a name that ends in zero.
    let name = unsafe { CStr::from_ptr(name.as_ptr()) };
    (host, name.to_str().expect("a path in ASCII").to_string())
}

/// Sends a signal to a process.
pub fn signal(process: u32, number: i32) {
    let process = c_int::try_from(process).expect("a process number");
    // SAFETY: it takes two numbers.
    let sent = unsafe { kill(process, number) };
    assert_eq!(sent, 0, "{}", io::Error::last_os_error());
}
