//! The data of opcodes 166 and 167.

use reference::points::{Found, Parameter};
use reference::store::Store;

use super::frames::{MOST_DATA, ODD_COUNTS};
use super::tlps::{self, readable, writable};
use super::values;
use crate::random::Random;

/// Opcode 167: type, logical, count, start.
pub fn read(random: &mut Random, level: u8) -> Vec<u8> {
    let good = random.percent(90);
    let first = tlps::preferably(random, |found| readable(found, level) == good);
    let following = following(first);
    let rest = following.len();
    let some = 1 + random.below(rest);
    let full = fitting(&following, |_| true);
    let count = random.of(&[1, some, some, full, rest.min(full + 1), rest]);
    name(random, first, count as u8, rest as u8).to_vec()
}

/// Opcode 166: the same, then values.
pub fn write(random: &mut Random, store: &Store, level: u8) -> Vec<u8> {
    let first = tlps::preferably(random, |found| writable(found, level));
    let following = following(first);
    let run = fitting(&following, |found| writable(found, level));
    let some = 1 + random.below(run);
    // The one behind those that fit is read-only, missing or too long.
    let count = if random.percent(8) {
        run + 1
    } else {
        random.of(&[1, some, some, run])
    };
    let fault = random.percent(25).then(|| random.below(count));
    let mut data = name(random, first, count as u8, following.len() as u8).to_vec();
    for (number, &found) in following.iter().enumerate().take(count) {
        data.extend(values::of(random, found, store, Some(number) != fault));
    }
    data.truncate(MOST_DATA);
    data
}

/// The four bytes that name a block, now and then one that is not quite there.
fn name(random: &mut Random, first: Found, count: u8, rest: u8) -> [u8; 4] {
    let [t, l, start] = tlps::tlp(first);
    let other = match random.below(25) {
        0 => tlps::missing(random),
        1 => tlps::tlp(tlps::existing(random)),
        _ => [t, l, start],
    };
    match random.below(25) {
        0 => [t, l, 0, start],
        1 => [t, l, rest + 1, start],
        2 => [t, l, random.of(&ODD_COUNTS), start],
        // The easy slip: start and count traded.
        3 => [t, l, start, count],
        _ => [other[0], other[1], count, other[2]],
    }
}

/// A parameter and those behind it in its logical.
fn following(first: Found) -> Vec<Found> {
    let last = first.point.rows.len() as u8;
    (first.parameter.0..last)
        .filter_map(|p| first.point.parameter(first.logical, Parameter(p)).ok())
        .collect()
}

/// How many of them one frame has room for, as far as each is wanted; at least
/// one.
fn fitting(following: &[Found], wanted: impl Fn(&Found) -> bool) -> usize {
    let mut length = 4;
    let fits = following.iter().take_while(|found| {
        length += found.row.length();
        wanted(found) && length <= MOST_DATA
    });
    fits.count().max(1)
}
