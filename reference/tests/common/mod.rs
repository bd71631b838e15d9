//! A station to ask, and frames to ask it with.
#![allow(dead_code)]

use reference::crc::crc16;
use reference::store::STORE_LENGTH;
use reference::{fill, request};

pub const UNIT: u8 = 13;
pub const GROUP: u8 = 5;
pub const HOST: [u8; 2] = [1, 0];
/// 2024-02-28 23:59:59.
pub const NOW: [u8; 7] = [59, 59, 23, 28, 2, 0xE8, 0x07];
/// What the reply space holds before a request.
pub const UNTOUCHED: u8 = 0xA5;

/// A store with a clock.
#[derive(Clone, PartialEq)]
pub struct Station {
    pub store: Vec<u8>,
    pub clock: [u8; 7],
    pub reply: [u8; 300],
}

/// A frame with its length and CRC.
pub fn frame(destination: [u8; 2], source: [u8; 2], opcode: u8, data: &[u8]) -> Vec<u8> {
    let mut bytes = vec![destination[0], destination[1], source[0], source[1]];
    bytes.extend([opcode, data.len() as u8]);
    bytes.extend(data);
    bytes.extend(crc16(&bytes).to_le_bytes());
    bytes
}

impl Station {
    /// From a fresh store.
    pub fn new() -> Self {
        let mut store = vec![0xFF; STORE_LENGTH];
        assert_eq!(fill(&mut store), 0);
        Self {
            store,
            clock: NOW,
            reply: [UNTOUCHED; 300],
        }
    }

    /// Sends a frame and checks what holds of every request: a refusal changes
    /// neither store nor clock, and behind the reply the reply space keeps its
    /// bytes.
    pub fn send(&mut self, frame: &[u8], level: u8) -> (u8, u16) {
        self.send_to(frame, [UNIT, GROUP], level)
    }

    pub fn send_to(&mut self, frame: &[u8], own: [u8; 2], level: u8) -> (u8, u16) {
        self.reply = [UNTOUCHED; 300];
        let before = (self.store.clone(), self.clock);
        let (outcome, length) = request(
            frame,
            &mut self.store,
            &mut self.clock,
            own[0],
            own[1],
            level,
            &mut self.reply,
        );
        if outcome != 0 {
            assert!(
                self.store == before.0,
                "refusal {outcome} changed the store"
            );
            assert_eq!(self.clock, before.1);
        }
        if (1..=8).contains(&outcome) {
            assert_eq!(length, 0);
        }
        let behind = &self.reply[usize::from(length)..];
        assert!(behind.iter().all(|&byte| byte == UNTOUCHED));
        (outcome, length)
    }

    /// Asks from the host and gives the reply's data bytes, or outcome and
    /// place of an error frame.
    pub fn ask(&mut self, opcode: u8, level: u8, data: &[u8]) -> Result<Vec<u8>, (u8, u8)> {
        let (outcome, length) = self.send(&frame([UNIT, GROUP], HOST, opcode, data), level);
        let reply = &self.reply[..usize::from(length)];
        let n = reply.len() - 8;
        assert_eq!(reply[..4], [HOST[0], HOST[1], UNIT, GROUP]);
        assert_eq!(usize::from(reply[5]), n);
        assert_eq!(crc16(reply), 0);
        let data = &reply[6..6 + n];
        if outcome == 0 {
            assert_eq!(reply[4], opcode);
            Ok(data.to_vec())
        } else {
            assert_eq!(reply[4], 255);
            assert_eq!((n, data[0]), (2, outcome));
            Err((data[0], data[1]))
        }
    }

    /// Asks for a write that is acknowledged.
    #[track_caller]
    pub fn write(&mut self, opcode: u8, level: u8, data: &[u8]) {
        assert_eq!(self.ask(opcode, level, data), Ok(vec![]));
    }

    /// The stored bytes of a parameter.
    pub fn stored(&self, tlp: [u8; 3]) -> &[u8] {
        let found = reference::points::Found::of(reference::points::Tlp::from_bytes(tlp)).unwrap();
        &self.store[found.offset..][..found.row.length()]
    }

    /// Puts bytes in the store without judging them.
    pub fn force(&mut self, tlp: [u8; 3], value: &[u8]) {
        let found = reference::points::Found::of(reference::points::Tlp::from_bytes(tlp)).unwrap();
        assert_eq!(value.len(), found.row.length());
        self.store[found.offset..][..value.len()].copy_from_slice(value);
    }
}
