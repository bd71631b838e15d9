//! A host that asks one unit at a time.

use crate::request::Request;
use crate::{Failure, Line};
use reference::frame::{self, Address, Frame, LONGEST, OVERHEAD};
use std::time::{Duration, Instant};

/// What a request brought.
#[derive(Debug, PartialEq, Eq)]
pub enum Response {
    /// The reply's data bytes, none for an acknowledgment.
    Reply(Vec<u8>),
    /// Nothing: a broadcast is not answered.
    Broadcast,
}

/// A host with its line.
pub struct Host {
    line: Line,
    /// The host's address.
    pub own: Address,
    /// Whom it asks.
    pub unit: Address,
    /// How long it waits for a reply.
    pub wait: Duration,
    /// What has come and is no whole frame yet.
    pending: Vec<u8>,
}

impl Host {
    /// A host on a line.
    #[must_use]
    pub const fn new(line: Line, own: Address, unit: Address, wait: Duration) -> Self {
        Self {
            line,
            own,
            unit,
            wait,
            pending: Vec::new(),
        }
    }

    /// Sends a request and waits for its reply.
    pub fn ask(&mut self, request: &Request) -> Result<Response, Failure> {
        self.pending.clear();
        self.line.send(&request.frame(self.unit, self.own))?;
        if self.unit.unit == 0 {
            return Ok(Response::Broadcast);
        }
        let until = Instant::now() + self.wait;
        loop {
            let bytes = self.next_frame(until)?;
            let Ok(frame) = Frame::from_bytes(&bytes) else {
                continue;
            };
            if !self.is_reply(frame) {
                continue;
            }
            match (frame.opcode, frame.data) {
                (frame::ERROR, &[number, place]) => {
                    return Err(Failure::Refused { number, place });
                }
                (frame::ERROR, _) => {
                    return Err(Failure::OddReply("an error frame without number and place"));
                }
                (opcode, data) if opcode == request.opcode() => {
                    return Ok(Response::Reply(data.to_vec()));
                }
                // A late reply to an earlier request.
                _ => {}
            }
        }
    }

    /// Sends bytes as they are and waits for the next frame.
    pub fn exchange(&mut self, bytes: &[u8]) -> Result<Vec<u8>, Failure> {
        self.pending.clear();
        self.send(bytes)?;
        self.receive()
    }

    /// Sends bytes as they are.
    pub fn send(&mut self, bytes: &[u8]) -> Result<(), Failure> {
        Ok(self.line.send(bytes)?)
    }

    /// The next frame, whoever it is for.
    pub fn receive(&mut self) -> Result<Vec<u8>, Failure> {
        self.next_frame(Instant::now() + self.wait)
    }

    /// Whether a frame comes from the unit to this host. To the direct connect
    /// address a unit answers with its own, which need not be known.
    fn is_reply(&self, frame: Frame) -> bool {
        frame.destination == self.own && (frame.source == self.unit || self.unit == Address::DIRECT)
    }

    fn next_frame(&mut self, until: Instant) -> Result<Vec<u8>, Failure> {
        loop {
            if let Some(frame) = take_frame(&mut self.pending) {
                return Ok(frame);
            }
            let left = until.saturating_duration_since(Instant::now());
            match self.line.receive(left)? {
                Some(bytes) => self.pending.extend(bytes),
                None => return salvage(&mut self.pending).ok_or(Failure::NoAnswer(self.wait)),
            }
        }
    }
}

/// Takes the first frame out of what has come. Bytes in front that begin no
/// frame go one by one; so do zeros, which leave the CRC right and begin no
/// reply.
fn take_frame(pending: &mut Vec<u8>) -> Option<Vec<u8>> {
    loop {
        let n = *pending.get(5)?;
        let length = OVERHEAD + usize::from(n);
        let frame = pending.get(..length)?;
        if frame[0] != 0 && Frame::from_bytes(frame).is_ok() {
            return Some(pending.drain(..length).collect());
        }
        pending.remove(0);
    }
}

/// Takes the first frame out of what has come if nothing more is to come: what
/// looks like the beginning of one is given up too.
fn salvage(pending: &mut Vec<u8>) -> Option<Vec<u8>> {
    while !pending.is_empty() {
        pending.remove(0);
        if let Some(frame) = take_frame(pending) {
            return Some(frame);
        }
    }
    None
}

/// A frame as bytes.
pub(crate) fn bytes_of(frame: Frame) -> Vec<u8> {
    let mut space = [0; LONGEST];
    let length = frame.write(&mut space);
    space[..usize::from(length)].to_vec()
}

#[cfg(test)]
mod tests {
    use super::*;

    fn frame() -> Vec<u8> {
        Request::ReadClock.frame(Address { unit: 1, group: 2 }, Address { unit: 3, group: 0 })
    }

    #[test]
    fn frames_behind_noise() {
        let mut pending = vec![9, 9, 9, 9, 9, 0, 9, 0, 0, 0];
        pending.extend(frame().repeat(2));
        pending.extend(&frame()[..5]);
        assert_eq!(take_frame(&mut pending), Some(frame()));
        assert_eq!(take_frame(&mut pending), Some(frame()));
        assert_eq!(take_frame(&mut pending), None);
        pending.extend(&frame()[5..]);
        assert_eq!(take_frame(&mut pending), Some(frame()));
        assert!(pending.is_empty());
    }

    #[test]
    fn a_frame_behind_noise_that_promises_more() {
        let mut pending = vec![9, 9, 9, 9, 9, 200];
        pending.extend(frame());
        assert_eq!(take_frame(&mut pending), None);
        assert_eq!(salvage(&mut pending), Some(frame()));
        assert_eq!(salvage(&mut pending), None);
    }
}
