//! Opcodes 166 and 167: a block of parameters of one logical (manual 2.20,
//! 2.21).

use super::plan::Plan;
use super::{check_writable, Body, Data, Purpose};
use crate::outcome::{Fault, Outcome};
use crate::points::{Count, Found, Logical, Parameter, Point, PointType};
use crate::store::Store;

/// Opcode 167: the four bytes that name the block, then its values.
pub(super) fn read(mut data: Data, store: &Store, level: u8) -> Result<Body, Fault> {
    let name = data.take_array()?;
    let block = find(name, Purpose::Read, level)?;
    data.end()?;
    let mut body = Body::new();
    body.push(&name);
    for found in block {
        body.push(found.value(store));
    }
    body.finish()
}

/// Opcode 166: the values follow the name; all are judged before one is
/// stored.
pub(super) fn write(mut data: Data, store: &mut Store, level: u8) -> Result<Body, Fault> {
    let block = find(data.take_array()?, Purpose::Write, level)?;
    let mut plan = Plan::new();
    for found in block {
        let place = data.place();
        check_writable(found).map_err(|outcome| outcome.at(place))?;
        let value = data.take(found.row.length())?;
        plan.add(store, found, value, place)?;
    }
    data.end()?;
    plan.carry_out(store);
    Ok(Body::new())
}

/// The checks both share, "as far as the level". The count comes before the
/// start.
fn find(
    [point_type, logical, count, start]: [u8; 4],
    purpose: Purpose,
    level: u8,
) -> Result<impl Iterator<Item = Found>, Fault> {
    let logical = Logical(logical);
    let point = Point::of(PointType(point_type)).map_err(|outcome| outcome.at(0))?;
    point.check(logical).map_err(|outcome| outcome.at(1))?;
    if count == 0 {
        return Err(Outcome::CountZero.at(2));
    }
    let block = point
        .block(logical, Parameter(start), Count(count))
        .map_err(|outcome| outcome.at(3))?;
    purpose
        .check_level(point, level)
        .map_err(|outcome| outcome.at(0))?;
    Ok(block)
}
