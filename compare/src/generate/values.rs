//! Values in their range, at its edges and just outside.

use reference::points::{Found, Logical, Parameter, Range, Row, POINTS};
use reference::store::Store;

use super::tlps::{self, is_number};
use crate::random::Random;
use crate::step::Tlp;

/// A system write, of a value that may have another length.
pub fn system_write(random: &mut Random, store: &Store) -> (Tlp, Vec<u8>) {
    if random.percent(12) {
        let length = random.below(10);
        return (tlps::missing(random), random.bytes(length));
    }
    let found = tlps::existing(random);
    let is_good = random.percent(75);
    let mut value = of(random, found, store, is_good);
    if random.percent(8) {
        let length = value.len();
        let length = random.of(&[0, length - 1, length + 1, 255]);
        value.resize(length, b' ');
    }
    (tlps::tlp(found), value)
}

/// A value of the row's length: good as far as the store leaves one, or bad as
/// far as there is one.
pub fn of(random: &mut Random, found: Found, store: &Store, is_good: bool) -> Vec<u8> {
    if is_good {
        good(random, found, store)
    } else {
        bad(random, found, store)
    }
}

fn good(random: &mut Random, found: Found, store: &Store) -> Vec<u8> {
    let row = found.row;
    match row.range {
        Range::Printable => text(random, row),
        Range::Unsigned(..) | Range::SegmentSize => {
            let (low, high) = limits(found, store);
            let high = high.max(low);
            let any = random.between(low, high);
            unsigned(row, random.of(&[any, any, low, high]))
        }
        Range::OneOf(list) => unsigned(row, random.of(list)),
        Range::Signed(low, high) => {
            let span = (i16::from(high) - i16::from(low) + 1) as usize;
            vec![low.wrapping_add(random.below(span) as i8).cast_unsigned()]
        }
        Range::Finite => float(random, row, true),
        Range::Tlp => named(random, |_| true),
        Range::NumberTlp => named(random, is_number),
    }
}

fn bad(random: &mut Random, found: Found, store: &Store) -> Vec<u8> {
    let row = found.row;
    match row.range {
        Range::Printable => {
            let mut text = text(random, row);
            let at = random.below(text.len());
            let at = random.of(&[at, 0, text.len() - 1]);
            text[at] = random.of(&[0x00, 0x1F, 0x7F, 0x80, 0xA0, 0xFF]);
            text
        }
        Range::Unsigned(..) | Range::SegmentSize => {
            let (low, high) = limits(found, store);
            let (below, above) = (low.wrapping_sub(1), high.wrapping_add(1));
            let (zero, last) = (0, u32::MAX);
            unsigned(row, random.of(&[below, above, above, zero, last]))
        }
        Range::OneOf(_) => unsigned(row, random.of(&[0, 7, 8, 9, 11, 59, 61, 255])),
        Range::Signed(low, high) => {
            let outside = [low - 1, high + 1, i8::MIN, i8::MAX, 120];
            vec![random.of(&outside).cast_unsigned()]
        }
        Range::Finite => float(random, row, false),
        Range::Tlp => no_tlp(random).to_vec(),
        Range::NumberTlp => match random.below(3) {
            0 => no_tlp(random).to_vec(),
            _ => named(random, |found| !is_number(found)),
        },
    }
}

/// The least and the most that an unsigned parameter may be, with its mate in
/// type 124 as the store has it. The store may leave nothing: then the least is
/// above the most.
fn limits(found: Found, store: &Store) -> (u32, u32) {
    let (low, high) = match found.row.range {
        Range::Unsigned(low, high) => (low, high),
        _ => (0, 240),
    };
    let first = found.logical == Logical(0);
    match tlps::tlp(found) {
        [124, _, 1] if first => (240, 240),
        [124, _, 1] => (mate(found, store, 12), 240),
        [124, _, 12] if !first => (0, high.min(mate(found, store, 1))),
        [124, _, 3] => (above(mate(found, store, 5)), high),
        [124, _, 4] => (above(mate(found, store, 6)), high),
        [124, _, 5] => (0, mate(found, store, 3).saturating_sub(1)),
        [124, _, 6] => (0, mate(found, store, 4).saturating_sub(1)),
        _ => (low, high),
    }
}

/// The least count of entries for an index.
const fn above(index: u32) -> u32 {
    if index == 0 {
        0
    } else {
        index + 1
    }
}

/// Another number of the same segment.
fn mate(found: Found, store: &Store, parameter: u8) -> u32 {
    let mate = POINTS[5].parameter(found.logical, Parameter(parameter));
    let value = mate.expect("each segment has it").value(store);
    u32::from(u16::from_le_bytes([value[0], value[1]]))
}

/// The low bytes of a number, as many as the row has.
fn unsigned(row: &Row, number: u32) -> Vec<u8> {
    number.to_le_bytes()[..row.length()].to_vec()
}

fn text(random: &mut Random, row: &Row) -> Vec<u8> {
    let letters = random.below(row.length() + 1);
    let mut text: Vec<u8> = (0..letters)
        .map(|_| random.of(&[b' ', b'~', b'0', b'A' + letters as u8 % 26, b'z']))
        .collect();
    text.resize(row.length(), b' ');
    text
}

/// A single or a double: the exponent's bits all set make it not finite, all
/// clear make it zero or subnormal.
fn float(random: &mut Random, row: &Row, finite: bool) -> Vec<u8> {
    let (width, exponent): (u32, u64) = if row.length() == 4 {
        (32, 0xFF << 23)
    } else {
        (64, 0x7FF << 52)
    };
    let lowest = exponent & exponent.wrapping_neg();
    let sign = (random.number() & 1) << (width - 1);
    let any = random.number() & (lowest - 1);
    let fraction = random.of(&[any, any, 0, 1, lowest >> 1, lowest - 1]);
    let exponent = if finite {
        let any = random.number() & exponent & !lowest;
        random.of(&[any, any, 0, lowest, exponent - lowest])
    } else {
        exponent
    };
    (sign | exponent | fraction).to_le_bytes()[..row.length()].to_vec()
}

/// 0,0,0 or the TLP of a parameter of a sort.
fn named(random: &mut Random, wanted: impl Fn(&Found) -> bool) -> Vec<u8> {
    let found = if random.percent(15) {
        None
    } else {
        tlps::such(random, wanted)
    };
    found.map_or([0; 3], tlps::tlp).to_vec()
}

/// No TLP, and not 0,0,0.
fn no_tlp(random: &mut Random) -> Tlp {
    match random.below(3) {
        0 => random.of(&[[0, 0, 1], [0, 1, 0], [1, 0, 0], [255; 3]]),
        _ => tlps::missing(random),
    }
}
