//! The program around the unit: its arguments, its clock, how it ends, what it
//! prints.

use crate::gateway::{program, Gateway};
use crate::libc::{SIGINT, SIGTERM};
use crate::pair::{ask, Pair};
use reference::clock::Clock;
use std::thread::sleep;
use std::time::{Duration, Instant, SystemTime, UNIX_EPOCH};

/// The status and the error text of a run that ends by itself.
fn run(arguments: &[&str]) -> (Option<i32>, String, String) {
    let output = program(arguments).output().expect("the gateway runs");
    let text = |bytes: Vec<u8>| String::from_utf8(bytes).expect("text");
    (
        output.status.code(),
        text(output.stdout),
        text(output.stderr),
    )
}

#[test]
fn bad_arguments() {
    for (arguments, named) in [
        (&["--unit", "0"][..], "--unit '0'"),
        (&["--unit", "256"], "--unit '256'"),
        (&["--unit", "-1"], "--unit '-1'"),
        (&["--unit", "x"], "--unit 'x'"),
        (&["--unit", ""], "--unit ''"),
        (&["--group", "256"], "--group '256'"),
        (&["--level", "4"], "--level '4'"),
        (&["--port", "65536"], "--port '65536'"),
        (&["--port", "1 "], "--port '1 '"),
        (&["--listen", "localhost"], "--listen 'localhost'"),
        (&["--rate", "9601"], "--rate '9601'"),
        (&["--unit", "240", "--group", "240"], "240,240"),
        (&["--unit"], "--unit"),
        (&["--loud"], "--loud"),
        (&["4000"], "'4000'"),
    ] {
        let (status, shown, error) = run(arguments);
        assert_eq!(status, Some(2), "{arguments:?}");
        assert!(error.contains(named), "{arguments:?}: {error}");
        assert_eq!(shown, "");
    }
}

#[test]
fn help() {
    let (status, shown, error) = run(&["--help"]);
    assert_eq!((status, error.as_str()), (Some(0), ""));
    for option in [
        "unit", "group", "level", "listen", "port", "serial", "rate", "verbose",
    ] {
        assert!(shown.contains(&format!("--{option} ")), "{option}");
    }
}

#[test]
fn what_cannot_be_opened() {
    let gateway = Gateway::start(&[]);
    let (_, port) = gateway.address.rsplit_once(':').unwrap();
    let (status, _, error) = run(&["--port", port]);
    assert_eq!(status, Some(1));
    assert!(error.contains(port), "{error}");
    let (status, _, error) = run(&["--port", "0", "--serial", "/dev/null/none"]);
    assert_eq!(status, Some(1));
    assert!(error.contains("/dev/null/none"), "{error}");
    // Open, but no serial device.
    assert_eq!(run(&["--port", "0", "--serial", "/dev/null"]).0, Some(1));
    gateway.stop(SIGTERM);
}

#[test]
fn signals_end_it_well() {
    for signal in [SIGINT, SIGTERM] {
        let gateway = Gateway::start(&[]);
        let mut pair = Pair::new(gateway.host(), 3);
        // In the middle of a frame.
        pair.host.send(&ask(7, &[])[..5]).unwrap();
        gateway.stop(signal);
    }
}

#[test]
fn other_addresses() {
    let gateway = Gateway::start(&["--unit", "13", "--group", "5", "--listen", "::1"]);
    assert!(gateway.address.starts_with("[::1]:"));
    let mut host = gateway.host();
    host.unit = reference::frame::Address { unit: 13, group: 5 };
    host.ask(&poll::request::Request::ReadClock)
        .expect("a clock");
    gateway.stop(SIGTERM);
}

/// The seconds of a clock since 2000-01-01, by days counted one by one.
fn seconds(clock: Clock) -> u64 {
    let years = Clock::FIRST_YEAR..clock.year;
    let months = years
        .flat_map(|year| (1..=12).map(move |month| (year, month)))
        .chain((1..clock.month).map(|month| (clock.year, month)));
    let days: u64 = months
        .map(|(year, month)| u64::from(Clock::days_in_month(year, month)))
        .sum();
    let days = days + u64::from(clock.day) - 1;
    let [hour, minute, second] = [clock.hour, clock.minute, clock.second].map(u64::from);
    ((days * 24 + hour) * 60 + minute) * 60 + second
}

fn shown(pair: &mut Pair) -> u64 {
    let reply = pair.host.exchange(&ask(7, &[])).expect("the clock");
    seconds(Clock::from_bytes(reply[6..13].try_into().unwrap()))
}

/// 2000-01-01 00:00:00 on the machine's clock.
const START: u64 = 946_684_800;

fn machine() -> u64 {
    let now = SystemTime::now().duration_since(UNIX_EPOCH);
    now.expect("a time since 1970").as_secs() - START
}

#[test]
fn the_clock_is_the_machines_and_goes_on() {
    let before = machine();
    let gateway = Gateway::start(&[]);
    let mut pair = Pair::new(gateway.host(), 3);
    let start = Instant::now();
    let first = shown(&mut pair);
    assert!((before..=machine() + 1).contains(&first));
    sleep(Duration::from_millis(3100));
    let second = shown(&mut pair);
    let passed = start.elapsed().as_secs();
    assert!((first + 3..=first + passed + 1).contains(&second));
    gateway.stop(SIGTERM);
}

/// "When you set the clock, the microseconds in the ROC800 zero out" (manual
/// 2.4): a second that was set is shown for a whole one.
#[test]
fn a_set_second_is_whole() {
    let setting = [5, 4, 3, 2, 1, 0xEA, 7];
    let gateway = Gateway::start(&[]);
    let mut pair = Pair::new(gateway.host(), 3);
    for _ in 0..4 {
        sleep(Duration::from_millis(130));
        let before = Instant::now();
        pair.host.exchange(&ask(8, &setting)).unwrap();
        sleep(Duration::from_millis(850));
        let reply = pair.host.exchange(&ask(7, &[])).unwrap();
        // A busy machine may have slept longer.
        if before.elapsed() < Duration::from_millis(990) {
            assert_eq!(reply[6..13], setting);
        }
    }
    gateway.stop(SIGTERM);
}

#[test]
fn the_last_moment_stays() {
    let last = [59, 59, 23, 31, 12, 0x33, 8];
    let gateway = Gateway::start(&[]);
    let mut pair = Pair::new(gateway.host(), 3);
    pair.host.exchange(&ask(8, &last)).unwrap();
    sleep(Duration::from_millis(1200));
    let reply = pair.host.exchange(&ask(7, &[])).unwrap();
    assert_eq!(reply[6..13], last);
    gateway.stop(SIGTERM);
}

#[test]
fn verbose() {
    let mut gateway = Gateway::start(&["--verbose"]);
    let mut pair = Pair::new(gateway.host(), 3);
    pair.check(&ask(166, &[124, 1, 1, 7, 7]));
    pair.host.send(&[9; 20]).unwrap();
    pair.check(&ask(17, &[]));
    for ending in [
        ": opened",
        "opcode 7 (read the clock), 0 data bytes: 0, acted on; reply of 16 bytes",
        "opcode 166 (write a block of parameters), 5 data bytes: 27, value outside its range, place 4; error frame",
        ": 20 bytes that belong to no frame; dropped",
        "opcode 17 (not served), 0 data bytes: 20, opcode not served, place 0; error frame",
    ] {
        let line = gateway.next_line();
        assert!(line.trim_end().ends_with(ending), "{line}");
    }
    gateway.stop(SIGTERM);
}
