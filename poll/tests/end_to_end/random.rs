//! Requests at random, near enough to good ones to get far. The same on every
//! run.

use poll::examples::{HOST, UNIT};
use poll::request::frame;
use reference::frame::Address;
use reference::points::{Kind, Point, Range, Row, POINTS};

/// A small generator of numbers (xorshift).
pub struct Random(u64);

impl Random {
    pub fn new(seed: u64) -> Self {
        Self(seed.wrapping_mul(0x9E37_79B9_7F4A_7C15) | 1)
    }

    pub fn next(&mut self) -> u64 {
        self.0 ^= self.0 << 13;
        self.0 ^= self.0 >> 7;
        self.0 ^= self.0 << 17;
        self.0
    }

    pub fn below(&mut self, end: usize) -> usize {
        (self.next() >> 16) as usize % end
    }

    pub fn byte(&mut self) -> u8 {
        self.below(256) as u8
    }

    /// True one time in so many.
    fn once_in(&mut self, times: usize) -> bool {
        self.below(times) == 0
    }

    fn of<T: Copy>(&mut self, list: &[T]) -> T {
        list[self.below(list.len())]
    }
}

/// A frame whose length and CRC are right; now and then it is for another
/// station, or from none.
pub fn request(random: &mut Random, opcodes: &[u8]) -> Vec<u8> {
    let other = Address { unit: 7, group: 2 };
    let destination = if random.once_in(10) {
        random.of(&[UNIT.broadcast(), Address::DIRECT, other])
    } else {
        UNIT
    };
    let source = if random.once_in(50) {
        random.of(&[UNIT, Address::DIRECT, UNIT.broadcast()])
    } else {
        HOST
    };
    let opcode = random.of(opcodes);
    let mut data = data(random, opcode);
    if random.once_in(12) {
        spoil(random, &mut data);
    }
    data.truncate(255);
    frame(destination, source, opcode, &data)
}

/// Data of a request that is mostly right.
fn data(random: &mut Random, opcode: u8) -> Vec<u8> {
    match opcode {
        8 => clock(random),
        10 | 11 => table(random, opcode == 11),
        166 | 167 => block(random, opcode == 166),
        180 | 181 => list(random, opcode == 181),
        _ => Vec::new(),
    }
}

/// Changes a byte, adds one or leaves some out.
fn spoil(random: &mut Random, data: &mut Vec<u8>) {
    let at = random.below(data.len() + 1);
    match random.below(3) {
        0 => data.truncate(at),
        1 => data.push(random.byte()),
        _ => {
            if let Some(byte) = data.get_mut(at) {
                *byte = if random.once_in(3) { 0 } else { random.byte() };
            }
        }
    }
}

fn clock(random: &mut Random) -> Vec<u8> {
    let [low, high] = (2000 + random.below(100) as u16).to_le_bytes();
    let day = 1 + random.below(31) as u8;
    let month = 1 + random.below(12) as u8;
    let hour = random.below(24) as u8;
    vec![
        random.below(50) as u8,
        random.below(60) as u8,
        hour,
        day,
        month,
        low,
        high,
    ]
}

/// The table's locations are not known here, so the values are those of soft
/// points' bytes, which [`tlp_value`] likes to put there.
fn table(random: &mut Random, write: bool) -> Vec<u8> {
    let count = 1 + random.below(4) as u8;
    let mut data = vec![random.below(2) as u8, 1 + random.below(6) as u8, count];
    if write {
        data.extend((0..count).map(|_| random.byte()));
    }
    data
}

fn point(random: &mut Random) -> (&'static Point, u8) {
    let point = &POINTS[random.below(POINTS.len())];
    // Few logicals, so that what is written is read again.
    let logical = random.below(usize::from(point.logicals).min(3)) as u8;
    (point, logical)
}

fn block(random: &mut Random, write: bool) -> Vec<u8> {
    let (point, logical) = point(random);
    let start = random.below(point.rows.len());
    let rows = &point.rows[start..];
    let count = 1 + random.below(rows.len().min(if write { 4 } else { 64 }));
    let mut data = vec![point.point_type.0, logical, count as u8, start as u8];
    if write {
        for row in &rows[..count] {
            data.extend(value(random, row));
        }
    }
    data
}

fn list(random: &mut Random, write: bool) -> Vec<u8> {
    let count = 1 + random.below(8);
    let mut data = vec![count as u8];
    for _ in 0..count {
        let (point, logical) = point(random);
        let parameter = random.below(point.rows.len());
        data.extend([point.point_type.0, logical, parameter as u8]);
        if write {
            data.extend(value(random, &point.rows[parameter]));
        }
    }
    data
}

/// A value of the row's length, mostly in its range.
fn value(random: &mut Random, row: &Row) -> Vec<u8> {
    let length = row.length();
    if random.once_in(20) {
        return (0..length).map(|_| random.byte()).collect();
    }
    match row.kind {
        Kind::Text => (0..length).map(|_| 32 + random.below(95) as u8).collect(),
        Kind::Signed => vec![(random.below(7) as i8 - 1).cast_unsigned()],
        Kind::Single => (random.byte() as f32 / 3.0).to_le_bytes().to_vec(),
        Kind::Double => (random.next() as f64).to_le_bytes().to_vec(),
        Kind::Tlp => tlp_value(random),
        Kind::Unsigned => {
            let number = match row.range {
                Range::Unsigned(low, high) => low + (random.next() as u32) % (high - low).max(1),
                Range::OneOf(list) => random.of(list),
                _ => random.below(241) as u32,
            };
            number.to_le_bytes()[..length].to_vec()
        }
    }
}

/// A TLP that names something, often a byte of a soft point.
fn tlp_value(random: &mut Random) -> Vec<u8> {
    if random.once_in(3) {
        let (point, logical) = point(random);
        return vec![
            point.point_type.0,
            logical,
            random.below(point.rows.len()) as u8,
        ];
    }
    vec![98, random.below(3) as u8, 33 + random.below(10) as u8]
}
