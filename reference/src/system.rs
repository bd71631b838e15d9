//! The system write: the firmware's own way to a parameter, read-only or not.

use crate::draft::Draft;
use crate::outcome::Outcome;
use crate::points::{Found, Tlp};
use crate::store::as_store_mut;

/// Writes one parameter. Outcome 0, or 2, 22, 23, 24, 21 (value of another
/// length), 27, in that order; a refusal changes nothing.
pub fn system_write(
    store: &mut [u8],
    point_type: u8,
    logical: u8,
    parameter: u8,
    value: &[u8],
) -> u8 {
    match write(
        store,
        Tlp::from_bytes([point_type, logical, parameter]),
        value,
    ) {
        Ok(()) => Outcome::ActedOn.number(),
        Err(outcome) => outcome.number(),
    }
}

fn write(store: &mut [u8], tlp: Tlp, value: &[u8]) -> Result<(), Outcome> {
    let store = as_store_mut(store)?;
    let found = Found::of(tlp)?;
    if value.len() != found.row.length() {
        return Err(Outcome::DataLength);
    }
    Draft::new().judge(store, found, value)?;
    found.value_mut(store).copy_from_slice(value);
    Ok(())
}
