//! Judging a value against the range of its row.

use crate::points::{Found, Kind, Logical, Range, Row, Tlp};

/// Whether a value of the row's length is in its range. The pairs of type 124
/// are judged apart, since they look at the store.
pub(crate) fn in_range(row: &Row, logical: Logical, value: &[u8]) -> bool {
    match row.range {
        Range::Printable => value.iter().all(|byte| (0x20..=0x7E).contains(byte)),
        Range::Unsigned(low, high) => (low..=high).contains(&unsigned(value)),
        Range::OneOf(list) => list.contains(&unsigned(value)),
        Range::Signed(low, high) => signed(value).is_some_and(|n| (low..=high).contains(&n)),
        Range::Finite => is_finite(value),
        Range::Tlp => is_tlp(value, |_| true),
        Range::NumberTlp => is_tlp(value, |kind| !matches!(kind, Kind::Text | Kind::Tlp)),
        Range::SegmentSize if logical == Logical(0) => unsigned(value) == 240,
        Range::SegmentSize => unsigned(value) <= 240,
    }
}

/// An unsigned number of up to four bytes, least significant first.
pub(crate) fn unsigned(value: &[u8]) -> u32 {
    value
        .iter()
        .rev()
        .fold(0, |number, &byte| number << 8 | u32::from(byte))
}

/// A byte as the signed number its bits mean.
pub(crate) fn signed(value: &[u8]) -> Option<i8> {
    value.first().map(|&byte| i8::from_le_bytes([byte]))
}

/// "A float or double is valid when finite"; its length tells which it is.
fn is_finite(value: &[u8]) -> bool {
    if let Ok(bytes) = value.try_into() {
        f32::from_le_bytes(bytes).is_finite()
    } else if let Ok(bytes) = value.try_into() {
        f64::from_le_bytes(bytes).is_finite()
    } else {
        false
    }
}

/// Whether a value is 0,0,0 or the TLP of a parameter of an admitted kind.
fn is_tlp(value: &[u8], admits: impl Fn(Kind) -> bool) -> bool {
    value.try_into().is_ok_and(|bytes| {
        bytes == [0, 0, 0]
            || Found::of(Tlp::from_bytes(bytes)).is_ok_and(|found| admits(found.row.kind))
    })
}
