//! The rules' examples, from a fresh store.

mod common;

use common::Station;
use reference::{clock::Clock, tick};

fn weekday_after_tick(mut clock: [u8; 7]) -> ([u8; 7], u8) {
    assert_eq!(tick(&mut clock), 0);
    (clock, Clock::from_bytes(clock).weekday())
}

#[test]
fn clock() {
    let [low, high] = 2023u16.to_le_bytes();
    assert_eq!(
        weekday_after_tick([59, 59, 23, 28, 2, low, high]),
        ([0, 0, 0, 1, 3, low, high], 4)
    );
    let [low, high] = 2024u16.to_le_bytes();
    assert_eq!(
        weekday_after_tick([59, 59, 23, 28, 2, low, high]),
        ([0, 0, 0, 29, 2, low, high], 5)
    );
    let mut station = Station::new();
    station.clock = [0, 0, 0, 1, 1, 0xD0, 0x07];
    assert_eq!(
        station.ask(7, 0, &[]),
        Ok(vec![0, 0, 0, 1, 1, 0xD0, 0x07, 7])
    );
}

#[test]
fn reads() {
    let mut station = Station::new();
    assert_eq!(
        station.ask(167, 0, &[98, 0, 1, 23]),
        Ok(vec![98, 0, 1, 23, 0, 0])
    );
    assert_eq!(
        station.ask(180, 0, &[1, 124, 0, 7]),
        Ok(vec![1, 124, 0, 7, 60])
    );
}

#[test]
fn segment_size() {
    let mut station = Station::new();
    assert_eq!(station.ask(166, 2, &[124, 0, 1, 1, 240, 0]), Err((26, 4)));
    assert_eq!(station.ask(166, 2, &[124, 1, 1, 1, 241, 0]), Err((27, 4)));
    assert_eq!(station.ask(166, 1, &[124, 1, 1, 1, 240, 0]), Err((25, 0)));
    assert_eq!(station.ask(166, 1, &[124, 0, 1, 1, 240, 0]), Err((25, 0)));
    station.write(166, 2, &[124, 1, 1, 1, 240, 0]);
    assert_eq!(station.stored([124, 1, 1]), [240, 0]);
}

#[test]
fn sample_rate() {
    let mut station = Station::new();
    station.write(166, 2, &[124, 1, 1, 7, 6]);
    assert_eq!(station.stored([124, 1, 7]), [6]);
    assert_eq!(station.ask(166, 2, &[124, 1, 1, 7, 7]), Err((27, 4)));
}

#[test]
fn a_parameter_named_twice_holds_the_last_value() {
    let mut station = Station::new();
    station.write(181, 1, &[2, 98, 0, 33, 5, 98, 0, 33, 9]);
    assert_eq!(station.stored([98, 0, 33]), [9]);
}

#[test]
fn a_late_fault_stores_nothing() {
    let mut station = Station::new();
    assert_eq!(
        station.ask(181, 1, &[2, 98, 0, 33, 5, 98, 0, 62, 9]),
        Err((24, 7))
    );
    assert_eq!(station.stored([98, 0, 33]), [0]);
}

#[test]
fn floats() {
    let mut station = Station::new();
    assert_eq!(
        station.ask(166, 1, &[98, 0, 1, 1, 0, 0, 128, 127]),
        Err((27, 4))
    );
    station.write(166, 1, &[98, 0, 1, 1, 0, 0, 0, 128]);
    assert_eq!(station.stored([98, 0, 1]), [0, 0, 0, 128]);
}

#[test]
fn an_empty_location() {
    assert_eq!(Station::new().ask(10, 0, &[0, 1, 1]), Err((22, 1)));
}

#[test]
fn longest_block() {
    let mut station = Station::new();
    let reply = station.ask(167, 0, &[98, 0, 56, 0]).unwrap();
    assert_eq!(reply.len(), 254);
    assert_eq!(
        reply[4..54],
        *b"Soft Pt 1                               \0\0\0\0\0\0\0\0\0\0"
    );
    assert_eq!(station.ask(167, 0, &[98, 0, 57, 0]), Err((28, 0)));
}

#[test]
fn longest_list() {
    let mut station = Station::new();
    let list = |count: u8| {
        let mut data = vec![count];
        (0..count).for_each(|_| data.extend([98, 31, 61]));
        data
    };
    let reply = station.ask(180, 0, &list(63)).unwrap();
    assert_eq!(reply.len(), 253);
    assert_eq!(reply[249..], [98, 31, 61, 1]);
    assert_eq!(station.ask(180, 0, &list(64)), Err((28, 0)));
}
