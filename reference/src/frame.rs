//! Frames (manual 1.2): destination, source, opcode, data length n, n data
//! bytes, CRC low byte, high byte.

use crate::crc::crc16;
use crate::outcome::Outcome;

/// The bytes of a frame besides its data.
pub const OVERHEAD: usize = 8;
/// The bytes of the longest frame.
pub const LONGEST: usize = OVERHEAD + 255;
/// The opcode of an error frame.
pub const ERROR: u8 = 255;

/// A station's address.
#[derive(Clone, Copy, Debug, PartialEq, Eq)]
pub struct Address {
    /// Its unit.
    pub unit: u8,
    /// Its group.
    pub group: u8,
}

impl Address {
    /// The direct connect address.
    pub const DIRECT: Self = Self {
        unit: 240,
        group: 240,
    };

    /// Whether a station may have it: "Addresses 240,240 and 0,x are reserved"
    /// (manual 1.2).
    #[must_use]
    pub fn is_allowed(self) -> bool {
        self.unit != 0 && self != Self::DIRECT
    }

    /// The address that broadcasts to this one's group.
    #[must_use]
    pub const fn broadcast(self) -> Self {
        Self {
            unit: 0,
            group: self.group,
        }
    }
}

/// A frame whose length and CRC are right.
#[derive(Clone, Copy, Debug, PartialEq, Eq)]
pub struct Frame<'a> {
    /// Whom it is for.
    pub destination: Address,
    /// Whom it is from.
    pub source: Address,
    /// What it asks, or answers.
    pub opcode: u8,
    /// Its data bytes, at most 255.
    pub data: &'a [u8],
}

impl<'a> Frame<'a> {
    /// Reads a frame: outcome 4, 5 or 6 if it is none.
    pub fn from_bytes(bytes: &'a [u8]) -> Result<Self, Outcome> {
        if bytes.len() > LONGEST {
            return Err(Outcome::FrameLength);
        }
        let Some((covered, crc)) = bytes.split_last_chunk() else {
            return Err(Outcome::FrameLength);
        };
        let &[unit, group, from_unit, from_group, opcode, n, ref data @ ..] = covered else {
            return Err(Outcome::FrameLength);
        };
        if data.len() != usize::from(n) {
            return Err(Outcome::LengthDiffers);
        }
        if crc16(covered) != u16::from_le_bytes(*crc) {
            return Err(Outcome::CrcDiffers);
        }
        Ok(Self {
            destination: Address { unit, group },
            source: Address {
                unit: from_unit,
                group: from_group,
            },
            opcode,
            data,
        })
    }

    /// Writes the frame at the beginning of a space and tells its length; the
    /// bytes behind it stay.
    ///
    /// # Panics
    ///
    /// With over 255 data bytes, which no frame holds.
    pub fn write(self, space: &mut [u8; LONGEST]) -> u16 {
        assert!(self.data.len() <= 255, "no frame holds so many data bytes");
        let n = self.data.len();
        let end = 6 + n;
        space[..6].copy_from_slice(&[
            self.destination.unit,
            self.destination.group,
            self.source.unit,
            self.source.group,
            self.opcode,
            n as u8,
        ]);
        space[6..end].copy_from_slice(self.data);
        let crc = crc16(&space[..end]);
        space[end..end + 2].copy_from_slice(&crc.to_le_bytes());
        (end + 2) as u16
    }
}
