//! The store: every parameter's bytes, types ascending, logicals ascending,
//! parameters ascending, unpadded.

use crate::outcome::Outcome;

/// The bytes a store has.
pub const STORE_LENGTH: usize = 12_427;

/// A store of the right length.
pub type Store = [u8; STORE_LENGTH];

/// The caller's bytes as a store to write, or outcome 2.
pub(crate) fn as_store_mut(bytes: &mut [u8]) -> Result<&mut Store, Outcome> {
    bytes.try_into().map_err(|_| Outcome::StoreLength)
}

/// The caller's bytes as a store to read, or outcome 2.
pub(crate) fn as_store(bytes: &[u8]) -> Result<&Store, Outcome> {
    bytes.try_into().map_err(|_| Outcome::StoreLength)
}
