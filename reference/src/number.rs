//! The number read: one parameter as an unsigned, a signed, a single or a
//! double.

use crate::outcome::Outcome;
use crate::points::{Found, Kind, Tlp};
use crate::store::as_store;
use crate::value::{signed, unsigned};

/// A parameter read as a number, which keeps what it is.
#[derive(Clone, Copy, Debug, PartialEq)]
pub enum Number {
    /// UINT8, UINT16 or UINT32.
    Unsigned(u32),
    /// INT8.
    Signed(i8),
    /// FL.
    Single(f32),
    /// DBL.
    Double(f64),
}

impl Number {
    /// 0 unsigned, 1 signed, 2 single, 3 double.
    #[must_use]
    pub const fn kind(self) -> u8 {
        match self {
            Self::Unsigned(_) => 0,
            Self::Signed(_) => 1,
            Self::Single(_) => 2,
            Self::Double(_) => 3,
        }
    }

    /// The stored bits, the first byte lowest and zeros above; also those of a
    /// NaN.
    #[must_use]
    pub const fn bits(self) -> u64 {
        match self {
            Self::Unsigned(number) => number as u64,
            Self::Signed(number) => number.cast_unsigned() as u64,
            Self::Single(number) => number.to_bits() as u64,
            Self::Double(number) => number.to_bits(),
        }
    }
}

/// Reads one parameter as a number, whatever value is stored. Refusals 2, 22,
/// 23, 24, and 27 for text and TLP, in that order.
pub fn number_read(store: &[u8], point_type: u8, logical: u8, parameter: u8) -> Result<Number, u8> {
    read(store, Tlp::from_bytes([point_type, logical, parameter])).map_err(Outcome::number)
}

fn read(store: &[u8], tlp: Tlp) -> Result<Number, Outcome> {
    let store = as_store(store)?;
    let found = Found::of(tlp)?;
    let value = found.value(store);
    let number = match found.row.kind {
        Kind::Unsigned => Some(Number::Unsigned(unsigned(value))),
        Kind::Signed => signed(value).map(Number::Signed),
        Kind::Single => value
            .try_into()
            .ok()
            .map(f32::from_le_bytes)
            .map(Number::Single),
        Kind::Double => value
            .try_into()
            .ok()
            .map(f64::from_le_bytes)
            .map(Number::Double),
        Kind::Text | Kind::Tlp => None,
    };
    number.ok_or(Outcome::Range)
}
