//! The outcome numbers of the rules, and a fault: an outcome with its place.

/// How a call ended, by the rules' number.
#[derive(Clone, Copy, Debug, PartialEq, Eq)]
#[repr(u8)]
pub enum Outcome {
    /// Acted on.
    ActedOn = 0,
    /// Reply space under 263 bytes.
    ReplySpace = 1,
    /// Store not 12,427 bytes.
    StoreLength = 2,
    /// Own address not allowed, level above 3, or clock not a valid date.
    Setting = 3,
    /// Frame under 8 or over 263 bytes.
    FrameLength = 4,
    /// Frame length not 8 + n.
    LengthDiffers = 5,
    /// CRC differs.
    CrcDiffers = 6,
    /// Not for us.
    NotForUs = 7,
    /// Source unit 0, source 240,240, or source equal to our address.
    Source = 8,
    /// Opcode not served.
    Opcode = 20,
    /// Data too short, or spare bytes at the end.
    DataLength = 21,
    /// No such point type.
    NoPointType = 22,
    /// No such logical.
    NoLogical = 23,
    /// No such parameter.
    NoParameter = 24,
    /// Level too low.
    Level = 25,
    /// Parameter is read-only.
    ReadOnly = 26,
    /// Value outside its range.
    Range = 27,
    /// Reply would hold over 255 data bytes.
    ReplyLength = 28,
    /// Table or location outside the table.
    Table = 29,
    /// Count is zero.
    CountZero = 30,
    /// Clock setting not a valid date.
    ClockSetting = 31,
}

impl Outcome {
    /// The number the rules give this outcome.
    #[must_use]
    pub const fn number(self) -> u8 {
        self as u8
    }

    /// This outcome, found at a place among the data bytes.
    pub(crate) const fn at(self, place: u8) -> Fault {
        Fault {
            outcome: self,
            place,
        }
    }
}

/// What an error frame tells: the outcome and the place.
#[derive(Clone, Copy, Debug, PartialEq, Eq)]
pub(crate) struct Fault {
    pub outcome: Outcome,
    pub place: u8,
}
