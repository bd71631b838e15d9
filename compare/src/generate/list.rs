//! The data of opcodes 180 and 181.

use reference::points::Found;
use reference::store::Store;

use super::frames::{MOST_DATA, ODD_COUNTS};
use super::tlps::{self, readable, writable};
use super::values;
use crate::random::Random;

/// What an entry is to be.
#[derive(Clone, Copy)]
struct Wanted {
    good: bool,
    /// The length of its value, if that matters.
    length: Option<usize>,
}

/// Opcode 180: a count and TLPs. A reply that is full has 255 data bytes.
pub fn read(random: &mut Random, level: u8) -> Vec<u8> {
    let mut seen = Vec::new();
    list(random, &[254, 255, 255, 256, 257], |random, wanted| {
        let found = match random.below(3) {
            _ if wanted.good => again(random, wanted, &seen)
                .or_else(|| tlps::such(random, |f| readable(f, level) && wanted.admits(f))),
            0 => tlps::such(random, |f| !readable(f, level)),
            _ => None,
        };
        seen.extend(found);
        let entry = found.map(|found| tlps::tlp(found).to_vec());
        entry.unwrap_or_else(|| tlps::missing(random).to_vec())
    })
}

/// Opcode 181: a count and TLPs with values.
pub fn write(random: &mut Random, store: &Store, level: u8) -> Vec<u8> {
    let mut seen = Vec::new();
    list(random, &[254, MOST_DATA], |random, wanted| {
        let fault = random.below(5);
        let found = match fault {
            _ if wanted.good => again(random, wanted, &seen)
                .or_else(|| tlps::such(random, |f| writable(f, level) && wanted.admits(f))),
            0 => tlps::such(random, |f| f.point.write_level > level),
            1 => tlps::such(random, |f| f.is_read_only() && f.point.write_level <= level),
            2 | 3 => tlps::such(random, |f| writable(f, level)),
            _ => None,
        };
        seen.extend(found);
        let Some(found) = found else {
            return [&tlps::missing(random), &[0; 4][..]].concat();
        };
        let is_good = wanted.good || !matches!(fault, 2 | 3);
        let value = values::of(random, found, store, is_good);
        [&tlps::tlp(found), &value[..]].concat()
    })
}

/// A list of entries.
fn list(
    random: &mut Random,
    full: &[usize],
    mut entry: impl FnMut(&mut Random, Wanted) -> Vec<u8>,
) -> Vec<u8> {
    let mut data = vec![0];
    for wanted in entries(random, full) {
        let next = entry(random, wanted);
        if data.len() + next.len() > MOST_DATA {
            break;
        }
        data[0] += 1;
        data.extend(next);
    }
    if random.percent(6) {
        let (count, odd) = (data[0], random.of(&ODD_COUNTS));
        data[0] = random.of(&[0, count + 1, count - 1, odd]);
    }
    data
}

/// The entries of a list: such that together with their values they have as
/// many bytes as one of the full lengths, or some, one of which is at fault in
/// half of the lists, and short ones if they are many.
fn entries(random: &mut Random, full: &[usize]) -> Vec<Wanted> {
    if random.percent(10) {
        return filling(random, full);
    }
    let count = random.of(&[1, 1, 1, 2, 2, 3, 4, 6, 10, 20, 44, 56, 57, 62, 63, 64, 84]);
    let any = random.below(count);
    let fault = random.of(&[count, any]);
    let length = (count > 10).then_some(1);
    (0..count)
        .map(|number| Wanted {
            good: number != fault,
            length,
        })
        .collect()
}

fn filling(random: &mut Random, full: &[usize]) -> Vec<Wanted> {
    let mut rest = random.of(full) - 1;
    let mut entries = Vec::new();
    while rest > 0 {
        let length = random.of(&[1, 2, 4, 8]);
        // Entries have 4, 5, 7 or 11 bytes, and these no entries add up to.
        let left = rest.checked_sub(3 + length);
        if let Some(left) = left.filter(|left| ![1, 2, 3, 6].contains(left)) {
            rest = left;
            let length = Some(length);
            entries.push(Wanted { good: true, length });
        }
    }
    entries
}

/// Now and then a parameter that was named before.
fn again(random: &mut Random, wanted: Wanted, seen: &[Found]) -> Option<Found> {
    let again = !seen.is_empty() && random.percent(10);
    let found = again.then(|| random.of(seen));
    found.filter(|found| wanted.admits(found))
}

impl Wanted {
    fn admits(self, found: &Found) -> bool {
        self.length
            .is_none_or(|length| found.row.length() == length)
    }
}
