//! The data bytes of a request, taken from front to back.

use crate::outcome::{Fault, Outcome};

/// The data bytes and the place reached among them.
pub(super) struct Data<'a> {
    bytes: &'a [u8],
    place: usize,
}

impl<'a> Data<'a> {
    /// At most 255 bytes, as a frame holds them: so every place is a byte.
    pub const fn new(bytes: &'a [u8]) -> Self {
        Self { bytes, place: 0 }
    }

    /// The place of the next byte.
    pub const fn place(&self) -> u8 {
        self.place as u8
    }

    /// The next bytes, or outcome 21 with place n if there are not so many.
    pub fn take(&mut self, length: usize) -> Result<&'a [u8], Fault> {
        let rest = &self.bytes[self.place..];
        let taken = rest.get(..length).ok_or(self.short())?;
        self.place += length;
        Ok(taken)
    }

    /// The next bytes as an array.
    pub fn take_array<const N: usize>(&mut self) -> Result<[u8; N], Fault> {
        let rest = &self.bytes[self.place..];
        let taken = rest.first_chunk().ok_or(self.short())?;
        self.place += N;
        Ok(*taken)
    }

    /// Outcome 21 with the place of the first spare byte, if any is left.
    pub fn end(&self) -> Result<(), Fault> {
        if self.place < self.bytes.len() {
            return Err(Outcome::DataLength.at(self.place()));
        }
        Ok(())
    }

    const fn short(&self) -> Fault {
        Outcome::DataLength.at(self.bytes.len() as u8)
    }
}
