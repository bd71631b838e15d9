//! A parameter found in the store.

use super::{Access, Logical, Parameter, Point, Row, Tlp};
use crate::outcome::Outcome;
use crate::store::Store;

/// One parameter of one logical, known to exist.
#[derive(Clone, Copy, Debug)]
pub struct Found {
    /// Its point type.
    pub point: &'static Point,
    /// Its logical.
    pub logical: Logical,
    /// Its parameter.
    pub parameter: Parameter,
    /// Its row.
    pub row: &'static Row,
    /// Where its value begins in the store.
    pub offset: usize,
}

impl Found {
    /// Finds the parameter a TLP names: outcome 22, 23 or 24, in that order,
    /// if there is none.
    pub fn of(tlp: Tlp) -> Result<Self, Outcome> {
        Point::of(tlp.point_type)?.parameter(tlp.logical, tlp.parameter)
    }

    /// The bytes of its value in the store.
    #[must_use]
    pub fn value(self, store: &Store) -> &[u8] {
        &store[self.offset..][..self.row.length()]
    }

    /// The bytes of its value in the store, to be written.
    pub(crate) fn value_mut(self, store: &mut Store) -> &mut [u8] {
        &mut store[self.offset..][..self.row.length()]
    }

    /// Whether a frame may not write it.
    #[must_use]
    pub fn is_read_only(self) -> bool {
        match self.row.access {
            Access::ReadWrite => false,
            Access::ReadOnly => true,
            Access::ReadOnlyOnLogical0 => self.logical == Logical(0),
        }
    }
}
