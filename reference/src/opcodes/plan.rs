//! The writes of one request: "all are checked before one byte is stored".

use crate::draft::Draft;
use crate::outcome::Fault;
use crate::points::Found;
use crate::store::Store;

/// The most writes one request can hold: opcode 181 spends at least four of
/// its 254 bytes on each, 166 has at most 62 and 11 at most 44.
const MOST: usize = 63;

/// A value to be stored.
#[derive(Clone, Copy)]
struct Write<'a> {
    offset: usize,
    value: &'a [u8],
}

/// The writes found good so far, in the order of the request.
pub(super) struct Plan<'a> {
    writes: [Write<'a>; MOST],
    count: usize,
    draft: Draft,
}

impl<'a> Plan<'a> {
    pub const fn new() -> Self {
        let nothing = Write {
            offset: 0,
            value: &[],
        };
        Self {
            writes: [nothing; MOST],
            count: 0,
            draft: Draft::new(),
        }
    }

    /// Judges the value of the next entry, outcome 27 with the value's place
    /// if it is refused.
    pub fn add(
        &mut self,
        store: &Store,
        found: Found,
        value: &'a [u8],
        place: u8,
    ) -> Result<(), Fault> {
        self.draft
            .judge(store, found, value)
            .map_err(|outcome| outcome.at(place))?;
        self.writes[self.count] = Write {
            offset: found.offset,
            value,
        };
        self.count += 1;
        Ok(())
    }

    /// Stores the values in their order, so that a parameter named twice holds
    /// the last.
    pub fn carry_out(&self, store: &mut Store) {
        for write in &self.writes[..self.count] {
            store[write.offset..][..write.value.len()].copy_from_slice(write.value);
        }
    }
}
