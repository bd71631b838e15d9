//! The kinds of number the rules keep apart, and the TLP made of three of
//! them.

/// The number of a point type.
#[derive(Clone, Copy, Debug, PartialEq, Eq)]
pub struct PointType(pub u8);

/// The number of a logical.
#[derive(Clone, Copy, Debug, PartialEq, Eq)]
pub struct Logical(pub u8);

/// The number of a parameter.
#[derive(Clone, Copy, Debug, PartialEq, Eq)]
pub struct Parameter(pub u8);

/// How many.
#[derive(Clone, Copy, Debug, PartialEq, Eq)]
pub struct Count(pub u8);

/// A type, a logical and a parameter (manual 3.1); it need not exist.
#[derive(Clone, Copy, Debug, PartialEq, Eq)]
pub struct Tlp {
    /// Its point type.
    pub point_type: PointType,
    /// Its logical.
    pub logical: Logical,
    /// Its parameter.
    pub parameter: Parameter,
}

impl Tlp {
    /// The TLP three bytes spell.
    #[must_use]
    pub const fn from_bytes([point_type, logical, parameter]: [u8; 3]) -> Self {
        Self {
            point_type: PointType(point_type),
            logical: Logical(logical),
            parameter: Parameter(parameter),
        }
    }

    /// The three bytes that spell it.
    #[must_use]
    pub const fn to_bytes(self) -> [u8; 3] {
        [self.point_type.0, self.logical.0, self.parameter.0]
    }
}
