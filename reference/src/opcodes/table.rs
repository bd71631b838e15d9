//! Opcodes 10 and 11: the parameters a table of type 99 names (manual 2.5,
//! 2.6). Nothing is stored before the last location is used, so locations are
//! those stored when the request arrives.

use super::plan::Plan;
use super::{check_writable, Body, Data, Purpose};
use crate::outcome::{Fault, Outcome};
use crate::points::{Count, Found, Logical, Parameter, Tlp, TABLES};
use crate::store::Store;

/// Opcode 10: the three bytes that name the locations, the table's revision,
/// then the values.
pub(super) fn read(mut data: Data, store: &Store, level: u8) -> Result<Body, Fault> {
    let name = data.take_array()?;
    let (revision, locations) = find(name)?;
    let mut body = Body::new();
    body.push(&name);
    body.push(revision.value(store));
    for location in locations {
        body.push(named(store, location, Purpose::Read, level)?.value(store));
    }
    data.end()?;
    body.finish()
}

/// Opcode 11: a value for each location; all are judged before one is stored.
pub(super) fn write(mut data: Data, store: &mut Store, level: u8) -> Result<Body, Fault> {
    let (_, locations) = find(data.take_array()?)?;
    let mut plan = Plan::new();
    for location in locations {
        let found = named(store, location, Purpose::Write, level)?;
        check_writable(found).map_err(|outcome| outcome.at(1))?;
        let place = data.place();
        let value = data.take(found.row.length())?;
        plan.add(store, found, value, place)?;
    }
    data.end()?;
    plan.carry_out(store);
    Ok(Body::new())
}

/// The table's revision and the locations asked for. Location i is parameter i
/// of the table; parameter 0, the revision, is no location.
fn find([table, start, count]: [u8; 3]) -> Result<(Found, impl Iterator<Item = Found>), Fault> {
    let table = Logical(table);
    let revision = TABLES
        .parameter(table, Parameter(0))
        .map_err(|_| Outcome::Table.at(0))?;
    if start == 0 || TABLES.parameter(table, Parameter(start)).is_err() {
        return Err(Outcome::Table.at(1));
    }
    if count == 0 {
        return Err(Outcome::CountZero.at(2));
    }
    let locations = TABLES
        .block(table, Parameter(start), Count(count))
        .map_err(|_| Outcome::Table.at(2))?;
    Ok((revision, locations))
}

/// The parameter a location names, for a level that may use it. Every fault's
/// place is that of the start location.
fn named(store: &Store, location: Found, purpose: Purpose, level: u8) -> Result<Found, Fault> {
    let at = location.offset;
    let tlp = Tlp::from_bytes([store[at], store[at + 1], store[at + 2]]);
    Found::of(tlp)
        .and_then(|found| purpose.check_level(found.point, level).map(|()| found))
        .map_err(|outcome| outcome.at(1))
}
