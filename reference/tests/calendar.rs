//! The clock through a hundred years and around its edges.

mod common;

use common::Station;
use reference::clock::Clock;
use reference::tick;

fn bytes(year: u16, month: u8, day: u8, time: [u8; 3]) -> [u8; 7] {
    let [hour, minute, second] = time;
    let [low, high] = year.to_le_bytes();
    [second, minute, hour, day, month, low, high]
}

fn after(mut clock: [u8; 7]) -> [u8; 7] {
    assert_eq!(tick(&mut clock), 0);
    clock
}

#[test]
fn carries() {
    let at = |time| bytes(2050, 6, 15, time);
    assert_eq!(after(at([7, 8, 9])), at([7, 8, 10]));
    assert_eq!(after(at([7, 8, 59])), at([7, 9, 0]));
    assert_eq!(after(at([7, 59, 59])), at([8, 0, 0]));
    assert_eq!(after(at([23, 59, 59])), bytes(2050, 6, 16, [0; 3]));
}

#[test]
fn every_day_of_the_hundred_years() {
    const LENGTHS: [u8; 12] = [31, 28, 31, 30, 31, 30, 31, 31, 30, 31, 30, 31];
    let mut clock = bytes(2000, 1, 1, [23, 59, 59]);
    let mut weekday = 7;
    let mut days = 0;
    for year in 2000..=2099u16 {
        for (month, length) in (1..).zip(LENGTHS) {
            let leap = month == 2 && year % 4 == 0;
            for day in 1..=length + u8::from(leap) {
                assert_eq!(clock, bytes(year, month, day, [23, 59, 59]));
                assert_eq!(Clock::from_bytes(clock).weekday(), weekday);
                let next = after(clock);
                if (year, month, day) == (2099, 12, 31) {
                    assert_eq!(next, clock);
                } else {
                    assert_eq!(next[..3], [0, 0, 0]);
                }
                clock = next;
                clock[..3].copy_from_slice(&[59, 59, 23]);
                weekday = weekday % 7 + 1;
                days += 1;
            }
        }
    }
    assert_eq!(days, 36_525);
}

#[test]
fn gregorian_leap_years() {
    let leap: Vec<u16> = [1900, 2000, 2023, 2024, 2099, 2100, 2400]
        .into_iter()
        .filter(|&year| Clock::is_leap(year))
        .collect();
    assert_eq!(leap, [2000, 2024, 2400]);
}

#[test]
fn an_invalid_date_stays_marked_3() {
    for clock in [
        bytes(2024, 1, 1, [0, 0, 60]),
        bytes(2024, 1, 1, [0, 60, 0]),
        bytes(2024, 1, 1, [24, 0, 0]),
        bytes(2024, 1, 0, [0; 3]),
        bytes(2024, 1, 32, [0; 3]),
        bytes(2024, 4, 31, [0; 3]),
        bytes(2024, 2, 30, [0; 3]),
        bytes(2023, 2, 29, [0; 3]),
        bytes(2024, 0, 1, [0; 3]),
        bytes(2024, 13, 1, [0; 3]),
        bytes(1999, 12, 31, [23, 59, 59]),
        bytes(2100, 1, 1, [0; 3]),
        [255; 7],
    ] {
        let mut ticked = clock;
        assert_eq!(tick(&mut ticked), 3);
        assert_eq!(ticked, clock);
    }
}

#[test]
fn opcode_7_reads_the_clock_at_any_level() {
    let mut station = Station::new();
    let mut expected = common::NOW.to_vec();
    expected.push(4);
    assert_eq!(station.ask(7, 0, &[]), Ok(expected));
    assert_eq!(station.ask(7, 0, &[1]), Err((21, 0)));
    assert_eq!(station.ask(7, 3, &[1, 2]), Err((21, 0)));
}

#[test]
fn opcode_8_sets_the_clock() {
    let mut station = Station::new();
    let wanted = bytes(2096, 2, 29, [12, 34, 56]);
    station.write(8, 2, &wanted);
    assert_eq!(station.clock, wanted);
}

#[test]
fn opcode_8_checks_in_order() {
    let mut station = Station::new();
    let mut data = [60, 60, 24, 0, 0, 0, 0, 9].to_vec();
    for n in 0..7 {
        assert_eq!(station.ask(8, 0, &data[..n]), Err((21, n as u8)));
    }
    assert_eq!(station.ask(8, 1, &data), Err((25, 0)));
    for (place, good) in [(0, 59), (1, 59), (2, 23), (4, 2)] {
        assert_eq!(station.ask(8, 2, &data), Err((31, place as u8)));
        data[place] = good;
    }
    assert_eq!(station.ask(8, 2, &data), Err((31, 5)));
    data[5..7].copy_from_slice(&2099u16.to_le_bytes());
    assert_eq!(station.ask(8, 2, &data), Err((31, 3)));
    data[3] = 29;
    assert_eq!(station.ask(8, 2, &data), Err((31, 3)));
    data[3] = 28;
    assert_eq!(station.ask(8, 2, &data), Err((21, 7)));
    station.write(8, 2, &data[..7]);
    assert_eq!(station.clock, bytes(2099, 2, 28, [23, 59, 59]));
}
