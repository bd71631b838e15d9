//! Clock bytes around the edges of the calendar.

use reference::clock::Clock;

use crate::random::Random;

/// A valid date, or nearly.
pub fn any(random: &mut Random) -> [u8; 7] {
    if random.percent(70) {
        good(random)
    } else {
        bad(random)
    }
}

/// A valid date.
pub fn good(random: &mut Random) -> [u8; 7] {
    let any_year = 2000 + random.below(100) as u16;
    let year = random.of(&[any_year, any_year, 2000, 2023, 2024, 2096, 2099]);
    let any_month = 1 + random.below(12) as u8;
    let month = random.of(&[any_month, any_month, 2, 12]);
    let last = Clock::days_in_month(year, month);
    let any_day = 1 + random.below(last.into()) as u8;
    let any_time = [60, 60, 24].map(|end| random.below(end) as u8);
    let [second, minute, hour] = random.of(&[
        any_time,
        any_time,
        [0, 0, 0],
        [59, 59, 23],
        [59, 59, any_time[2]],
    ]);
    Clock {
        second,
        minute,
        hour,
        day: random.of(&[any_day, any_day, 1, last]),
        month,
        year,
    }
    .to_bytes()
}

/// A date with one field just outside, or at the end of its byte.
fn bad(random: &mut Random) -> [u8; 7] {
    let mut clock = Clock::from_bytes(good(random));
    match random.below(6) {
        0 => clock.second = random.of(&[60, 255]),
        1 => clock.minute = random.of(&[60, 255]),
        2 => clock.hour = random.of(&[24, 255]),
        3 => {
            let last = Clock::days_in_month(clock.year, clock.month);
            clock.day = random.of(&[0, last + 1, 255]);
        }
        4 => clock.month = random.of(&[0, 13, 255]),
        _ => clock.year = random.of(&[1900, 1999, 2100, 0, 0x00D0, 0xD007, 65_535]),
    }
    clock.to_bytes()
}
