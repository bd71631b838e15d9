//! Opcodes 180 and 181: a list of parameters, each by its TLP (manual 2.22,
//! 2.23).

use super::plan::Plan;
use super::{check_writable, Body, Data, Purpose};
use crate::outcome::{Fault, Outcome};
use crate::points::{Found, Tlp};
use crate::store::Store;

/// Opcode 180: the count, then each TLP with its value.
pub(super) fn read(mut data: Data, store: &Store, level: u8) -> Result<Body, Fault> {
    let count = count(&mut data)?;
    let mut body = Body::new();
    body.push(&[count]);
    for _ in 0..count {
        let (tlp, found) = entry(&mut data, Purpose::Read, level)?;
        body.push(&tlp.to_bytes());
        body.push(found.value(store));
    }
    data.end()?;
    body.finish()
}

/// Opcode 181: each TLP is followed by its value; all are judged before one is
/// stored.
pub(super) fn write(mut data: Data, store: &mut Store, level: u8) -> Result<Body, Fault> {
    let mut plan = Plan::new();
    for _ in 0..count(&mut data)? {
        let place = data.place();
        let (_, found) = entry(&mut data, Purpose::Write, level)?;
        check_writable(found).map_err(|outcome| outcome.at(place))?;
        let place = data.place();
        let value = data.take(found.row.length())?;
        plan.add(store, found, value, place)?;
    }
    data.end()?;
    plan.carry_out(store);
    Ok(Body::new())
}

/// How many entries follow; not zero.
fn count(data: &mut Data) -> Result<u8, Fault> {
    let [count] = data.take_array()?;
    if count == 0 {
        return Err(Outcome::CountZero.at(0));
    }
    Ok(count)
}

/// The next TLP and what it names. A fault's place is that of the number at
/// fault, for the level that of the type.
fn entry(data: &mut Data, purpose: Purpose, level: u8) -> Result<(Tlp, Found), Fault> {
    let place = data.place();
    let tlp = Tlp::from_bytes(data.take_array()?);
    let found = Found::of(tlp).map_err(|outcome| {
        outcome.at(match outcome {
            Outcome::NoLogical => place + 1,
            Outcome::NoParameter => place + 2,
            _ => place,
        })
    })?;
    purpose
        .check_level(found.point, level)
        .map_err(|outcome| outcome.at(place))?;
    Ok((tlp, found))
}
