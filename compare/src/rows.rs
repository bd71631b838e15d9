//! What was tried of each row, by the calls that name one parameter: that a
//! value was stored, that one was refused for its range, that it was read.

use std::fmt;

use reference::points::{Found, Parameter, Point, Range, Row, Tlp, POINTS};

use crate::step::Call;

/// How often something was done with a row.
#[derive(Clone, Copy, Debug, Default)]
struct Tried {
    stored: u64,
    refused: u64,
    read: u64,
}

/// The counts for each row.
#[derive(Clone, Debug)]
pub struct Rows([Vec<Tried>; POINTS.len()]);

impl Default for Rows {
    fn default() -> Self {
        Self(POINTS.map(|point| vec![Tried::default(); point.rows.len()]))
    }
}

impl Rows {
    /// Counts a system write or a number read.
    pub fn count(&mut self, call: &Call, outcome: u8) {
        let (Call::SystemWrite(tlp, _) | Call::NumberRead(tlp)) = call else {
            return;
        };
        let Ok(found) = Found::of(Tlp::from_bytes(*tlp)) else {
            return;
        };
        let number = found.point.point_type;
        let point = POINTS.iter().position(|point| point.point_type == number);
        let Parameter(parameter) = found.parameter;
        let tried = &mut self.0[point.expect("it was found")][usize::from(parameter)];
        match (call, outcome) {
            (Call::SystemWrite(..), 0) => tried.stored += 1,
            (Call::SystemWrite(..), 27) => tried.refused += 1,
            (Call::NumberRead(_), 0 | 27) => tried.read += 1,
            _ => {}
        }
    }

    /// The rows of which something was never tried.
    #[must_use]
    pub fn faults(&self) -> Vec<String> {
        let mut faults = Vec::new();
        for (point, parameter, row, tried) in self.each() {
            let mut never = |count: u64, what: &str| {
                if count == 0 {
                    let number = point.point_type.0;
                    faults.push(format!("{number}/{parameter}, {}: never {what}", row.name));
                }
            };
            never(tried.stored, "stored by a system write");
            never(tried.read, "read as a number");
            if can_refuse(point, parameter, row) {
                never(tried.refused, "refused for its range");
            }
        }
        faults
    }

    fn each(&self) -> impl Iterator<Item = (&'static Point, usize, &'static Row, Tried)> + '_ {
        POINTS.iter().zip(&self.0).flat_map(|(point, tried)| {
            let rows = point.rows.iter().zip(tried).enumerate();
            rows.map(move |(parameter, (row, tried))| (point, parameter, row, *tried))
        })
    }

    fn least(&self, count: impl Fn(Tried) -> u64) -> u64 {
        let counts = self.each().map(|(_, _, _, tried)| count(tried));
        counts.min().unwrap_or_default()
    }
}

impl fmt::Display for Rows {
    fn fmt(&self, f: &mut fmt::Formatter) -> fmt::Result {
        let stored = self.least(|tried| tried.stored);
        let read = self.least(|tried| tried.read);
        let rows = self.each().count();
        write!(f, "Each of {rows} rows: system writes stored at least ")?;
        write!(
            f,
            "{stored} times, number reads made at least {read} times; "
        )?;
        let refusing = self.each().filter(|(_, _, _, tried)| tried.refused > 0);
        writeln!(f, "{} rows refused a value", refusing.count())
    }
}

/// Whether there is a value that a row does not admit: not so if every number
/// of its length is in its range, except for the pairs of type 124.
fn can_refuse(point: &Point, parameter: usize, row: &Row) -> bool {
    let paired = point.point_type.0 == 124 && (3..=6).contains(&parameter);
    let most = u32::MAX >> (32 - 8 * row.length().min(4));
    row.range != Range::Unsigned(0, most) || paired
}
