//! A unit: the buffers that calls are made on.

use reference::store::STORE_LENGTH;

use crate::gateway::Gateway;
use crate::step::{Call, Request, Step};

/// The bytes behind each buffer that no call may touch; a buffer may also be
/// handed over longer than it should be, by as many.
pub const SPARE: usize = 64;
/// The bytes of the longest reply space.
pub const REPLY_SPACE: usize = 300;

/// The buffers of one side, each with bytes to spare behind it.
#[derive(Clone, Debug, PartialEq, Eq)]
pub struct Unit {
    store: Box<[u8; STORE_LENGTH + SPARE]>,
    clock: [u8; 7 + SPARE],
    reply: [u8; REPLY_SPACE + SPARE],
}

/// What a call answered, besides what it did to the buffers.
#[derive(Clone, Copy, Debug, PartialEq, Eq)]
pub struct Answer {
    /// The outcome; 0 for a step that is no call.
    pub outcome: u8,
    /// The reply length of a request.
    pub length: Option<u16>,
    /// Kind and bits of a number read.
    pub number: Option<(u8, u64)>,
}

impl Unit {
    /// A unit whose store was never filled, at 2000-01-01 00:00:00.
    #[must_use]
    pub fn new() -> Self {
        let mut unit = Self {
            store: Box::new([0xEE; STORE_LENGTH + SPARE]),
            clock: [0xCC; 7 + SPARE],
            reply: [0; REPLY_SPACE + SPARE],
        };
        *unit.clock_mut() = [0, 0, 0, 1, 1, 0xD0, 0x07];
        unit
    }

    /// The store.
    ///
    /// # Panics
    ///
    /// Never: the buffer is longer.
    #[must_use]
    pub fn store(&self) -> &[u8; STORE_LENGTH] {
        self.store.first_chunk().expect("the buffer is longer")
    }

    /// The clock.
    ///
    /// # Panics
    ///
    /// Never: the buffer is longer.
    #[must_use]
    pub fn clock(&self) -> &[u8; 7] {
        self.clock.first_chunk().expect("the buffer is longer")
    }

    /// The reply space with the bytes behind it.
    #[must_use]
    pub const fn reply(&self) -> &[u8] {
        &self.reply
    }

    /// Every buffer with the bytes behind it, by name.
    #[must_use]
    pub fn buffers(&self) -> [(&'static str, &[u8]); 3] {
        [
            ("store", &*self.store),
            ("clock", &self.clock),
            ("reply space", &self.reply),
        ]
    }

    fn clock_mut(&mut self) -> &mut [u8; 7] {
        self.clock.first_chunk_mut().expect("the buffer is longer")
    }

    /// Makes a step on one side.
    pub fn take(&mut self, side: &dyn Gateway, step: &Step) -> Answer {
        let store = &mut self.store[..step.store_length];
        let outcome = match &step.call {
            Call::Request(request) => return self.ask(side, request, step.store_length),
            Call::NumberRead(tlp) => {
                let read = side.number_read(store, *tlp);
                return Answer {
                    number: Some(read.number),
                    ..Answer::of(read.outcome)
                };
            }
            Call::SystemWrite(tlp, value) => side.system_write(store, *tlp, value),
            Call::Fill => side.fill(store),
            Call::Tick => side.tick(self.clock_mut()),
            Call::Overwrite(at, bytes) => {
                store[*at..][..bytes.len()].copy_from_slice(bytes);
                0
            }
            Call::SetClock(clock) => {
                *self.clock_mut() = *clock;
                0
            }
        };
        Answer::of(outcome)
    }

    fn ask(&mut self, side: &dyn Gateway, request: &Request, store_length: usize) -> Answer {
        self.reply = pattern();
        let clock = self.clock.first_chunk_mut().expect("the buffer is longer");
        let (outcome, length) = side.request(
            &request.frame,
            &mut self.store[..store_length],
            clock,
            request.own,
            request.level,
            &mut self.reply[..request.reply_length],
        );
        Answer {
            length: Some(length),
            ..Answer::of(outcome)
        }
    }
}

impl Default for Unit {
    fn default() -> Self {
        Self::new()
    }
}

impl Answer {
    const fn of(outcome: u8) -> Self {
        Self {
            outcome,
            length: None,
            number: None,
        }
    }
}

/// What a reply space holds before a request: neighbours differ, so that bytes
/// that were moved show.
fn pattern() -> [u8; REPLY_SPACE + SPARE] {
    let mut bytes = [0; REPLY_SPACE + SPARE];
    for (at, byte) in bytes.iter_mut().enumerate() {
        *byte = 0xA5 ^ (at as u8).wrapping_mul(37);
    }
    bytes
}
