//! A pseudo-terminal in the place of a serial device.

use crate::gateway::{Gateway, LONG, SILENCE};
use crate::libc::{pseudo_terminal, SIGTERM};
use crate::pair::{ask, Pair};
use crate::unit::Unit;
use poll::examples::{HOST, UNIT};
use poll::{Host, Line};
use std::fs::{self, File};
use std::io::{Read, Write};
use std::path::{Path, PathBuf};
use std::thread::sleep;
use std::time::{Duration, Instant};

/// A gateway on a pseudo-terminal, and a host at the other end.
pub fn start(arguments: &[&str]) -> (Gateway, Host) {
    let (end, path) = pseudo_terminal();
    let gateway = Gateway::start(&[&["--serial", &path], arguments].concat());
    (gateway, host(end))
}

fn host(end: File) -> Host {
    let line = Line::over_file(end).expect("a line");
    Host::new(line, HOST, UNIT, LONG)
}

/// Bytes that a terminal would treat as a line's end, an interrupt, the end of
/// a file, a stop or a character to echo.
#[test]
fn every_byte_passes() {
    let (gateway, host) = start(&["--rate", "9600"]);
    let mut pair = Pair::new(host, 3);
    for byte in 0..=255 {
        pair.check(&ask(166, &[98, 0, 1, 33, byte]));
        pair.check(&ask(180, &[1, 98, 0, 33]));
    }
    gateway.stop(SIGTERM);
}

#[test]
fn noise_and_half_frames() {
    let (gateway, host) = start(&[]);
    let mut pair = Pair::new(host, 3);
    let good = ask(167, &[98, 0, 3, 31]);
    for noise in [&[0][..], &[1, 2, 3, 0, 167], &good[..9], &[255; 100]] {
        pair.host.send(noise).unwrap();
        sleep(SILENCE);
        assert_eq!(pair.check(&good), 0);
        // At once behind noise.
        pair.host.send(noise).unwrap();
        assert_eq!(pair.check(&good), 0);
    }
    gateway.stop(SIGTERM);
}

/// More replies than the line and the gateway hold: what is left waits, and
/// none is lost or mixed up.
#[test]
fn a_host_that_reads_late() {
    let (mut end, path) = pseudo_terminal();
    let gateway = Gateway::start(&["--serial", &path]);
    let mut unit = Unit::fresh(3);
    let requests: Vec<_> = (0..80)
        .map(|number| ask(167, &[98, number % 32, 45 + number % 12, number % 5]))
        .collect();
    end.write_all(&requests.concat()).unwrap();
    sleep(SILENCE);
    for request in requests {
        let (_, expected) = unit.answer(&request);
        let mut reply = vec![0; expected.len()];
        end.read_exact(&mut reply).unwrap();
        assert_eq!(reply, expected);
    }
    gateway.stop(SIGTERM);
}

/// A device that goes away and comes back under the same name, as one that is
/// unplugged does.
#[test]
fn a_device_that_comes_back() {
    let name = Name::new();
    let (mut end, path) = pseudo_terminal();
    name.point_to(&path);
    let gateway = Gateway::start(&["--serial", name.0.to_str().unwrap()]);
    let request = ask(166, &[98, 0, 1, 33, 1]);
    end.write_all(&request).unwrap();
    let mut acknowledgment = [0; 8];
    end.read_exact(&mut acknowledgment).unwrap();
    assert_eq!(acknowledgment[4], 166);

    let (next, path) = pseudo_terminal();
    name.point_to(&path);
    drop(end);
    wait_until_open(&gateway, &path);
    let mut pair = Pair::new(host(next), 3);
    pair.unit.answer(&request);
    assert_eq!(pair.check(&ask(167, &[98, 0, 1, 33])), 0);
    gateway.stop(SIGTERM);
}

/// A name for a device, which can be pointed elsewhere.
struct Name(PathBuf);

impl Name {
    fn new() -> Self {
        Self(std::env::temp_dir().join(format!("tyurkanim-device-{}", std::process::id())))
    }

    fn point_to(&self, path: &str) {
        let _ = fs::remove_file(&self.0);
        std::os::unix::fs::symlink(path, &self.0).expect("a name");
    }
}

impl Drop for Name {
    fn drop(&mut self) {
        let _ = fs::remove_file(&self.0);
    }
}

fn wait_until_open(gateway: &Gateway, path: &str) {
    let until = Instant::now() + LONG;
    let is_open = || {
        let descriptors = fs::read_dir(format!("/proc/{}/fd", gateway.id())).expect("descriptors");
        descriptors
            .filter_map(|descriptor| fs::read_link(descriptor.ok()?.path()).ok())
            .any(|target| target == Path::new(path))
    };
    while !is_open() {
        assert!(Instant::now() < until, "the device is not opened again");
        sleep(Duration::from_millis(20));
    }
    // Opened is not yet set raw.
    sleep(Duration::from_millis(100));
}
