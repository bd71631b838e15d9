//! The fill: every parameter gets its default.

use crate::outcome::Outcome;
use crate::points::{DefaultValue, Logical, Point, POINTS};
use crate::store::{as_store_mut, Store};

/// Fills the store with the defaults. Outcome 0, or 2 for a store of another
/// length, which stays as it is.
pub fn fill(store: &mut [u8]) -> u8 {
    match as_store_mut(store) {
        Ok(store) => {
            POINTS.iter().for_each(|point| fill_point(store, point));
            Outcome::ActedOn.number()
        }
        Err(outcome) => outcome.number(),
    }
}

fn fill_point(store: &mut Store, point: &'static Point) {
    for logical in (0..point.logicals).map(Logical) {
        for found in point.all(logical) {
            write_default(found.row.default, logical, found.value_mut(store));
        }
    }
}

/// Writes a default over the bytes of a value.
fn write_default(default: DefaultValue, Logical(logical): Logical, value: &mut [u8]) {
    let number = match default {
        DefaultValue::Text(text) => return write_text(value, &[text.as_bytes()]),
        DefaultValue::SoftPoint => {
            let digits = two_digits(logical + 1);
            let digits = if digits[0] == b'0' {
                &digits[1..]
            } else {
                &digits[..]
            };
            return write_text(value, &[b"Soft Pt ", digits]);
        }
        DefaultValue::Segment if logical == 0 => return write_text(value, &[b"General 00"]),
        DefaultValue::Segment => return write_text(value, &[b"Segment ", &two_digits(logical)]),
        DefaultValue::Unsigned(number) => number,
        DefaultValue::SegmentSize if logical == 0 => 240,
        DefaultValue::SegmentSize | DefaultValue::Zero => 0,
    };
    value.fill(0);
    for (byte, part) in value.iter_mut().zip(number.to_le_bytes()) {
        *byte = part;
    }
}

/// Text "padded with spaces".
fn write_text(value: &mut [u8], parts: &[&[u8]]) {
    value.fill(b' ');
    let text = parts.iter().copied().flatten();
    for (byte, &letter) in value.iter_mut().zip(text) {
        *byte = letter;
    }
}

/// A number below 100 in decimal.
fn two_digits(number: u8) -> [u8; 2] {
    [b'0' + number / 10, b'0' + number % 10]
}
