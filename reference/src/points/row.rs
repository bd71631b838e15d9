//! One row for each parameter: length, kind, access, range, default.

/// A parameter's row in the manual's tables, as the rules read it.
#[derive(Clone, Copy, Debug)]
pub struct Row {
    /// The manual's name.
    pub name: &'static str,
    /// The bytes of its value.
    pub length: u8,
    /// What its bytes are.
    pub kind: Kind,
    /// Whether a frame may write it.
    pub access: Access,
    /// The values it admits, its partner in type 124 aside.
    pub range: Range,
    /// What the fill stores.
    pub default: DefaultValue,
    /// Where it begins in its logical.
    pub offset: u16,
}

/// What the bytes of a value are.
#[derive(Clone, Copy, Debug, PartialEq, Eq)]
pub enum Kind {
    /// AC.
    Text,
    /// UINT8, UINT16, UINT32.
    Unsigned,
    /// INT8.
    Signed,
    /// FL.
    Single,
    /// DBL.
    Double,
    /// Type, logical, parameter.
    Tlp,
}

/// Whether a frame may write a parameter.
#[derive(Clone, Copy, Debug, PartialEq, Eq)]
pub enum Access {
    /// R/W.
    ReadWrite,
    /// R/O.
    ReadOnly,
    /// R/O on logical 0, R/W on the others (124/1).
    ReadOnlyOnLogical0,
}

/// The values a parameter admits.
#[derive(Clone, Copy, Debug, PartialEq, Eq)]
pub enum Range {
    /// Every byte from 0x20 to 0x7E.
    Printable,
    /// An unsigned number, both ends included.
    Unsigned(u32, u32),
    /// An unsigned number of a list.
    OneOf(&'static [u32]),
    /// A signed number, both ends included.
    Signed(i8, i8),
    /// A finite single or double.
    Finite,
    /// 0,0,0 or the TLP of a parameter.
    Tlp,
    /// 0,0,0 or the TLP of a number.
    NumberTlp,
    /// 240 on logical 0, 0 to 240 on the others (124/1).
    SegmentSize,
}

/// What the fill stores for a parameter.
#[derive(Clone, Copy, Debug, PartialEq, Eq)]
pub enum DefaultValue {
    /// Text, padded with spaces.
    Text(&'static str),
    /// "Soft Pt x" with the logical plus 1 (98/0).
    SoftPoint,
    /// "General 00" on logical 0, "Segment XX" on the others (124/0).
    Segment,
    /// An unsigned number.
    Unsigned(u32),
    /// 240 on logical 0, 0 on the others (124/1).
    SegmentSize,
    /// Every byte 0: zero of any number, or the TLP 0,0,0.
    Zero,
}

impl Row {
    /// Text, writable.
    pub(super) const fn text(name: &'static str, length: u8, default: &'static str) -> Self {
        Self {
            name,
            length,
            kind: Kind::Text,
            access: Access::ReadWrite,
            range: Range::Printable,
            default: DefaultValue::Text(default),
            offset: 0,
        }
    }

    /// An unsigned number, writable.
    pub(super) const fn unsigned(
        name: &'static str,
        length: u8,
        range: (u32, u32),
        default: u32,
    ) -> Self {
        Self {
            name,
            length,
            kind: Kind::Unsigned,
            access: Access::ReadWrite,
            range: Range::Unsigned(range.0, range.1),
            default: DefaultValue::Unsigned(default),
            offset: 0,
        }
    }

    /// A signed byte, writable, 0 by default.
    pub(super) const fn signed(name: &'static str, low: i8, high: i8) -> Self {
        Self {
            kind: Kind::Signed,
            range: Range::Signed(low, high),
            ..Self::zero(name, 1)
        }
    }

    /// A single, writable, 0 by default.
    pub(super) const fn single(name: &'static str) -> Self {
        Self {
            kind: Kind::Single,
            range: Range::Finite,
            ..Self::zero(name, 4)
        }
    }

    /// A double, writable, 0 by default.
    pub(super) const fn double(name: &'static str) -> Self {
        Self {
            kind: Kind::Double,
            range: Range::Finite,
            ..Self::zero(name, 8)
        }
    }

    /// A TLP, writable, 0,0,0 by default.
    pub(super) const fn tlp(name: &'static str, range: Range) -> Self {
        Self {
            kind: Kind::Tlp,
            range,
            ..Self::zero(name, 3)
        }
    }

    const fn zero(name: &'static str, length: u8) -> Self {
        Self {
            default: DefaultValue::Zero,
            ..Self::unsigned(name, length, (0, 0), 0)
        }
    }

    /// The same row, read-only.
    pub(super) const fn read_only(self) -> Self {
        Self {
            access: Access::ReadOnly,
            ..self
        }
    }

    /// The bytes of its value.
    #[must_use]
    pub const fn length(&self) -> usize {
        self.length as usize
    }
}

/// Puts the rows of one logical one behind the other, unpadded.
pub(super) const fn laid_out<const N: usize>(mut rows: [Row; N]) -> [Row; N] {
    let mut i = 1;
    while i < N {
        rows[i].offset = rows[i - 1].offset + rows[i - 1].length as u16;
        i += 1;
    }
    rows
}
