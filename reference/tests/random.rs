//! Requests at random, near enough to good ones to get far: none panics, and
//! what holds of every request holds of them.

mod common;

use common::{frame, Station, GROUP, HOST, UNIT};
use std::collections::BTreeSet;

/// A small generator of numbers (xorshift), the same on every run.
struct Random(u64);

impl Random {
    fn next(&mut self) -> u64 {
        self.0 ^= self.0 << 13;
        self.0 ^= self.0 >> 7;
        self.0 ^= self.0 << 17;
        self.0
    }

    fn below(&mut self, end: u64) -> u8 {
        (self.next() % end) as u8
    }

    fn of(&mut self, list: &[u8]) -> u8 {
        list[usize::from(self.below(list.len() as u64))]
    }
}

fn tlp(random: &mut Random) -> [u8; 3] {
    [
        random.of(&[97, 98, 98, 99, 122, 123, 124, 124, 124, 0]),
        random.of(&[0, 0, 0, 0, 1, 5, 12, 40]),
        random.of(&[0, 1, 2, 3, 5, 7, 8, 9, 10, 12, 13, 21, 33, 61]),
    ]
}

fn data(random: &mut Random, opcode: u8) -> Vec<u8> {
    let mut data = Vec::new();
    match opcode {
        8 => data.extend([
            1,
            2,
            3,
            random.of(&[0, 28, 31]),
            random.of(&[1, 2, 13]),
            0xE8,
            7,
        ]),
        10 | 11 => {
            let start = random.of(&[0, 1, 1, 2, 44, 45]);
            data.extend([random.of(&[0, 0, 15, 16]), start, random.of(&[0, 1, 2, 44])]);
        }
        166 | 167 => {
            let [point_type, logical, start] = tlp(random);
            data.extend([
                point_type,
                logical,
                random.of(&[0, 1, 1, 1, 3, 20, 57]),
                start,
            ]);
        }
        180 | 181 => {
            let count = random.of(&[0, 1, 1, 2, 3, 64]);
            data.push(count);
            for _ in 0..count {
                data.extend(tlp(random));
                if opcode == 181 {
                    let length = random.of(&[1, 1, 2, 4]);
                    (0..length).for_each(|_| data.push(random.of(&[0, 0, 1, 32, 255])));
                }
            }
        }
        _ => {}
    }
    if random.below(3) > 0 && matches!(opcode, 11 | 166) {
        let byte = random.of(&[0, 1, 32]);
        data.resize(
            data.len() + usize::from(random.of(&[1, 2, 3, 10, 20])),
            byte,
        );
    }
    if random.below(20) == 0 {
        data.push(random.below(256));
    }
    if random.below(20) == 0 {
        data.truncate(usize::from(random.below(data.len() as u64 + 1)));
    }
    data.truncate(255);
    data
}

#[test]
fn requests() {
    let mut random = Random(0x9E37_79B9_7F4A_7C15);
    let mut station = Station::new();
    let mut seen = BTreeSet::new();
    for round in 0..10_000 {
        if round % 100 == 0 {
            station = Station::new();
        }
        let opcode = random.of(&[7, 8, 10, 11, 166, 167, 180, 181, 17]);
        let destination = [random.of(&[UNIT, UNIT, UNIT, UNIT, 0, 240]), GROUP];
        let mut asked = frame(destination, HOST, opcode, &data(&mut random, opcode));
        if random.below(50) == 0 {
            let at = usize::from(random.below(asked.len() as u64));
            asked[at] ^= 1 << random.below(8);
        }
        let level = random.of(&[0, 1, 2, 3, 3, 3]);
        let (outcome, length) = station.send(&asked, level);
        seen.insert(outcome);
        let silent = outcome < 20 && outcome > 0 || destination[0] == 0;
        assert_eq!(length == 0, silent);
    }
    let expected = (5..=7).chain(20..=31).chain([0]).collect::<BTreeSet<_>>();
    assert!(seen.is_superset(&expected), "{seen:?}");
}

/// Any bytes at all, over any store and clock.
#[test]
fn any_bytes() {
    let mut random = Random(1);
    for _ in 0..300 {
        let mut bytes = |end| (0..end).map(|_| random.below(256)).collect::<Vec<_>>();
        let mut station = Station::new();
        station.store.copy_from_slice(&bytes(12_427));
        let data = bytes(200);
        let opcode = random.of(&[7, 8, 10, 11, 166, 167, 180, 181]);
        let cut = usize::from(random.below(201));
        station.send(&frame([UNIT, GROUP], HOST, opcode, &data[..cut]), 3);
        station.send(&data[..cut], 3);
    }
}
