//! What has no answer: outcomes 4 to 8, and broadcasts.

use crate::gateway::{Gateway, SILENCE};
use crate::libc::SIGTERM;
use crate::pair::{ask, Pair};
use poll::examples::{HOST, UNIT};
use poll::request::frame;
use reference::frame::Address;
use std::thread::sleep;

const WRITE: [u8; 5] = [98, 0, 1, 33, 5];

/// Frames for others and from addresses that no station has. The next frame is
/// found at once behind each.
#[test]
fn not_for_us_or_from_nobody() {
    let gateway = Gateway::at_level(3);
    let mut pair = Pair::new(gateway.host(), 3);
    let at = |unit, group| Address { unit, group };
    for (destination, source, outcome) in [
        (at(2, 2), HOST, 7),
        (at(1, 3), HOST, 7),
        (at(0, 3), HOST, 7),
        (at(240, 2), HOST, 7),
        (at(2, 2), UNIT, 7),
        (UNIT, at(0, 2), 8),
        (UNIT, Address::DIRECT, 8),
        (UNIT, UNIT, 8),
        (UNIT.broadcast(), UNIT, 8),
        (Address::DIRECT, at(0, 0), 8),
    ] {
        let frame = frame(destination, source, 166, &WRITE);
        assert_eq!(pair.check(&frame), outcome, "{destination:?} {source:?}");
        pair.check_silent();
    }
    pair.check_store();
    gateway.stop(SIGTERM);
}

/// Outcomes 4, 5 and 6: too short, another length than the length byte says,
/// a wrong CRC. After silence each is forgotten.
#[test]
fn no_frames() {
    let gateway = Gateway::at_level(3);
    let mut pair = Pair::new(gateway.host(), 3);
    let write = ask(166, &WRITE);
    let short = write[..7].to_vec();
    let cut = write[..write.len() - 1].to_vec();
    let mut longer_than_told = write.clone();
    longer_than_told[5] -= 1;
    let mut shorter_than_told = write.clone();
    shorter_than_told[5] += 1;
    let mut other_crc = write.clone();
    *other_crc.last_mut().unwrap() ^= 0x80;
    let mut other_data = write.clone();
    other_data[10] ^= 1;
    for (bytes, outcome) in [
        (short, 4),
        (cut, 5),
        (longer_than_told, 5),
        (shorter_than_told, 5),
        (other_crc, 6),
        (other_data, 6),
    ] {
        assert_eq!(pair.check(&bytes), outcome);
        sleep(SILENCE);
        pair.check_silent();
    }
    pair.check_store();
    gateway.stop(SIGTERM);
}

/// A host that waits for no silence but asks on gets its answers too.
#[test]
fn no_silence_between() {
    let gateway = Gateway::at_level(3);
    let mut pair = Pair::new(gateway.host(), 3);
    let mut broken = ask(166, &WRITE);
    *broken.last_mut().unwrap() ^= 1;
    for _ in 0..5 {
        assert_eq!(pair.check(&broken), 6);
        assert_eq!(pair.check(&ask(167, &[98, 0, 1, 33])), 0);
    }
    pair.check_store();
    gateway.stop(SIGTERM);
}
