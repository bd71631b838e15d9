//! Opcodes 7 and 8: reading and setting the clock (manual 2.3, 2.4).

use super::{Body, Data};
use crate::clock::Clock;
use crate::outcome::{Fault, Outcome};

/// The level that may set the clock.
const SET_LEVEL: u8 = 2;

/// Opcode 7: the clock bytes and the weekday.
pub(super) fn read(data: Data, clock: &[u8; 7]) -> Result<Body, Fault> {
    data.end()?;
    let mut body = Body::new();
    body.push(clock);
    body.push(&[Clock::from_bytes(*clock).weekday()]);
    Ok(body)
}

/// Opcode 8: the place of a field at fault is that of its first byte, which is
/// how the fields are numbered.
pub(super) fn set(mut data: Data, clock: &mut [u8; 7], level: u8) -> Result<Body, Fault> {
    let wanted = data.take_array()?;
    if level < SET_LEVEL {
        return Err(Outcome::Level.at(0));
    }
    if let Some(field) = Clock::from_bytes(wanted).first_fault() {
        return Err(Outcome::ClockSetting.at(field as u8));
    }
    data.end()?;
    *clock = wanted;
    Ok(Body::new())
}
