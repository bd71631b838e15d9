//! The point types served, their rows, and where a parameter stands in the
//! store.

mod found;
mod row;
mod tlp;
mod type122;
mod type123;
pub(crate) mod type124;
mod type97;
mod type98;
mod type99;

use crate::outcome::Outcome;

pub use found::Found;
pub use row::{Access, DefaultValue, Kind, Range, Row};
pub use tlp::{Count, Logical, Parameter, PointType, Tlp};

/// One point type: a line of the rules' table with the rows of its
/// parameters.
#[derive(Clone, Copy, Debug)]
pub struct Point {
    /// Its number.
    pub point_type: PointType,
    /// How many logicals it has, numbered from 0.
    pub logicals: u8,
    /// The level that may read it.
    pub read_level: u8,
    /// The level that may write it.
    pub write_level: u8,
    /// One row for each parameter, parameter 0 first.
    pub rows: &'static [Row],
    /// The bytes of one logical.
    pub bytes: usize,
    /// Where its logical 0 begins in the store.
    pub start: usize,
}

/// The point types served, ascending.
pub static POINTS: [Point; 6] = laid_out([
    point(97, 6, 0, 1, &type97::ROWS),
    point(98, 32, 0, 1, &type98::ROWS),
    point(99, 16, 0, 2, &type99::ROWS),
    point(122, 1, 1, 3, &type122::ROWS),
    point(123, 1, 2, 3, &type123::ROWS),
    point(124, 13, 0, 2, &type124::ROWS),
]);

/// The point type of opcodes 10 and 11's tables.
pub(crate) static TABLES: &Point = &POINTS[2];
/// The history segments, whose pairs are judged together.
pub(crate) static SEGMENTS: &Point = &POINTS[5];
/// The bytes of all history segments.
pub(crate) const SEGMENTS_LENGTH: usize = POINTS[5].bytes * POINTS[5].logicals as usize;

/// One line of the rules' table, its place in the store still open.
const fn point(
    number: u8,
    logicals: u8,
    read_level: u8,
    write_level: u8,
    rows: &'static [Row],
) -> Point {
    let last = &rows[rows.len() - 1];
    Point {
        point_type: PointType(number),
        logicals,
        read_level,
        write_level,
        rows,
        bytes: last.offset as usize + last.length as usize,
        start: 0,
    }
}

/// Puts the point types one behind the other.
const fn laid_out<const N: usize>(mut points: [Point; N]) -> [Point; N] {
    let mut i = 1;
    while i < N {
        let before = points[i - 1];
        points[i].start = before.start + before.bytes * before.logicals as usize;
        i += 1;
    }
    points
}

impl Point {
    /// The point type of a number, or outcome 22.
    pub fn of(point_type: PointType) -> Result<&'static Self, Outcome> {
        POINTS
            .iter()
            .find(|point| point.point_type == point_type)
            .ok_or(Outcome::NoPointType)
    }

    /// Outcome 23 unless it has the logical.
    pub(crate) fn check(&self, logical: Logical) -> Result<(), Outcome> {
        if logical.0 < self.logicals {
            Ok(())
        } else {
            Err(Outcome::NoLogical)
        }
    }

    /// One parameter, or outcome 23 or 24, in that order.
    pub fn parameter(
        &'static self,
        logical: Logical,
        parameter: Parameter,
    ) -> Result<Found, Outcome> {
        self.check(logical)?;
        let row = self
            .rows
            .get(usize::from(parameter.0))
            .ok_or(Outcome::NoParameter)?;
        Ok(self.found(logical, parameter, row))
    }

    /// The `count` parameters from `start` of an existing logical, or outcome 24
    /// if any of them is missing.
    pub(crate) fn block(
        &'static self,
        logical: Logical,
        start: Parameter,
        count: Count,
    ) -> Result<impl Iterator<Item = Found>, Outcome> {
        let first = usize::from(start.0);
        let rows = self
            .rows
            .get(first..first + usize::from(count.0))
            .ok_or(Outcome::NoParameter)?;
        Ok(self.parameters(logical, start, rows))
    }

    /// Every parameter of an existing logical.
    pub(crate) fn all(&'static self, logical: Logical) -> impl Iterator<Item = Found> {
        self.parameters(logical, Parameter(0), self.rows)
    }

    fn parameters(
        &'static self,
        logical: Logical,
        start: Parameter,
        rows: &'static [Row],
    ) -> impl Iterator<Item = Found> {
        (start.0..)
            .zip(rows)
            .map(move |(number, row)| self.found(logical, Parameter(number), row))
    }

    fn found(&'static self, logical: Logical, parameter: Parameter, row: &'static Row) -> Found {
        let point = self.start + usize::from(logical.0) * self.bytes;
        Found {
            point: self,
            logical,
            parameter,
            row,
            offset: point + usize::from(row.offset),
        }
    }
}
