//! One request: is it for us, what does it ask, what goes back.

use crate::clock::Clock;
use crate::frame::{self, Address, Frame};
use crate::opcodes;
use crate::outcome::Outcome;
use crate::store::as_store_mut;

/// The highest level there is.
const HIGHEST_LEVEL: u8 = 3;

/// Serves one request frame to the station `unit`, `group` from a caller of
/// `level`. Gives the outcome number and the length of the reply; the reply
/// space keeps its bytes behind the reply, store and clock change only with
/// outcome 0.
pub fn request(
    frame: &[u8],
    store: &mut [u8],
    clock: &mut [u8; 7],
    unit: u8,
    group: u8,
    level: u8,
    reply: &mut [u8],
) -> (u8, u16) {
    let own = Address { unit, group };
    match serve(frame, store, clock, own, level, reply) {
        Ok((outcome, length)) => (outcome.number(), length),
        Err(silent) => (silent.number(), 0),
    }
}

/// The outcomes 1 to 8 as errors; any other with the length of its reply.
fn serve(
    frame: &[u8],
    store: &mut [u8],
    clock: &mut [u8; 7],
    own: Address,
    level: u8,
    reply: &mut [u8],
) -> Result<(Outcome, u16), Outcome> {
    let reply = reply.first_chunk_mut().ok_or(Outcome::ReplySpace)?;
    let store = as_store_mut(store)?;
    if !own.is_allowed() || level > HIGHEST_LEVEL || !Clock::from_bytes(*clock).is_valid() {
        return Err(Outcome::Setting);
    }
    let frame = Frame::from_bytes(frame)?;
    let broadcast = frame.destination == own.broadcast();
    if !broadcast && frame.destination != own && frame.destination != Address::DIRECT {
        return Err(Outcome::NotForUs);
    }
    if !frame.source.is_allowed() || frame.source == own {
        return Err(Outcome::Source);
    }

    let served = opcodes::serve(frame.opcode, frame.data, store, clock, level);
    let outcome = served
        .as_ref()
        .err()
        .map_or(Outcome::ActedOn, |fault| fault.outcome);
    if broadcast {
        return Ok((outcome, 0));
    }
    let mut send = |opcode, data: &[u8]| {
        Frame {
            destination: frame.source,
            source: own,
            opcode,
            data,
        }
        .write(reply)
    };
    let length = match served {
        Ok(body) => send(frame.opcode, body.bytes()),
        Err(fault) => send(frame::ERROR, &[outcome.number(), fault.place]),
    };
    Ok((outcome, length))
}
