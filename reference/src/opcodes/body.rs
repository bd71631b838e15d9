//! The data bytes of a reply, collected before the reply space is touched.

use crate::outcome::{Fault, Outcome};

/// The most data bytes a frame holds.
const MOST: usize = 255;

/// The data bytes so far; counts on past the most, to be refused at the end.
pub(crate) struct Body {
    bytes: [u8; MOST],
    length: usize,
}

impl Body {
    /// No bytes: an acknowledgment as it stands.
    pub const fn new() -> Self {
        Self {
            bytes: [0; MOST],
            length: 0,
        }
    }

    /// Adds some bytes at the end.
    pub fn push(&mut self, part: &[u8]) {
        let end = self.length + part.len();
        if let Some(space) = self.bytes.get_mut(self.length..end) {
            space.copy_from_slice(part);
        }
        self.length = end;
    }

    /// The finished body, or outcome 28 if it holds too many bytes.
    pub fn finish(self) -> Result<Self, Fault> {
        if self.length > MOST {
            return Err(Outcome::ReplyLength.at(0));
        }
        Ok(self)
    }

    /// The data bytes of a finished body.
    pub fn bytes(&self) -> &[u8] {
        &self.bytes[..self.length]
    }
}
