//! Requests as records of 272 bytes, the form of the captures that document 02
//! has run again: level, a zero, the frame's length in two bytes, 263 bytes with
//! the frame at their start, five zeros.

use reference::frame::LONGEST;

use crate::step::Request;

/// The address of the station that records are for.
pub const OWN: [u8; 2] = [1, 2];

/// The record of a request, whose frame is no longer than a frame can be.
#[must_use]
pub fn record(request: &Request) -> Vec<u8> {
    let [low, high] = (request.frame.len() as u16).to_le_bytes();
    let mut record = vec![request.level, 0, low, high];
    record.extend(&request.frame);
    record.resize(4 + LONGEST + 5, 0);
    record
}
