//! The opcodes served, by theme. Each checks in the rules' order, stops at
//! the first fault, and stores nothing before the last check.

mod block;
mod body;
mod data;
mod list;
mod plan;
mod table;
mod time;

use crate::outcome::{Fault, Outcome};
use crate::points::{Found, Point};
use crate::store::Store;
use body::Body;
use data::Data;

/// Serves an opcode: the reply's data bytes, none for an acknowledgment, or
/// the fault.
pub(crate) fn serve(
    opcode: u8,
    data: &[u8],
    store: &mut Store,
    clock: &mut [u8; 7],
    level: u8,
) -> Result<Body, Fault> {
    let data = Data::new(data);
    match opcode {
        7 => time::read(data, clock),
        8 => time::set(data, clock, level),
        10 => table::read(data, store, level),
        11 => table::write(data, store, level),
        166 => block::write(data, store, level),
        167 => block::read(data, store, level),
        180 => list::read(data, store, level),
        181 => list::write(data, store, level),
        _ => Err(Outcome::Opcode.at(0)),
    }
}

/// What a request does with the parameters it names.
#[derive(Clone, Copy)]
enum Purpose {
    Read,
    Write,
}

impl Purpose {
    /// Outcome 25 unless the level may do this with a point type.
    fn check_level(self, point: &Point, level: u8) -> Result<(), Outcome> {
        let needed = match self {
            Self::Read => point.read_level,
            Self::Write => point.write_level,
        };
        if level < needed {
            return Err(Outcome::Level);
        }
        Ok(())
    }
}

/// Outcome 26 if a parameter is read-only.
fn check_writable(found: Found) -> Result<(), Outcome> {
    if found.is_read_only() {
        return Err(Outcome::ReadOnly);
    }
    Ok(())
}
