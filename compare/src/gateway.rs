//! The five calls, as both sides have them.

use crate::step::Tlp;

/// What a number read answers: the outcome, then kind and bits, which a refusal
/// leaves as they were before ([`archive::BEFORE`]).
#[derive(Clone, Copy, Debug, PartialEq, Eq)]
pub struct NumberRead {
    /// 0, or why it was refused.
    pub outcome: u8,
    /// Kind and bits after the call.
    pub number: (u8, u64),
}

/// A side of the comparison.
pub trait Gateway {
    /// Which side it is.
    fn name(&self) -> &'static str;

    /// Answers one frame: outcome and reply length.
    fn request(
        &self,
        frame: &[u8],
        store: &mut [u8],
        clock: &mut [u8; 7],
        own: [u8; 2],
        level: u8,
        reply: &mut [u8],
    ) -> (u8, u16);

    /// Stores one value, read-only or not.
    fn system_write(&self, store: &mut [u8], tlp: Tlp, value: &[u8]) -> u8;

    /// Fills the store with the defaults.
    fn fill(&self, store: &mut [u8]) -> u8;

    /// Moves the clock on by one second.
    fn tick(&self, clock: &mut [u8; 7]) -> u8;

    /// Reads one parameter as a number.
    fn number_read(&self, store: &[u8], tlp: Tlp) -> NumberRead;
}

/// The independent implementation.
#[derive(Clone, Copy, Debug)]
pub struct Reference;

impl Gateway for Reference {
    fn name(&self) -> &'static str {
        "reference"
    }

    fn request(
        &self,
        frame: &[u8],
        store: &mut [u8],
        clock: &mut [u8; 7],
        [unit, group]: [u8; 2],
        level: u8,
        reply: &mut [u8],
    ) -> (u8, u16) {
        reference::request(frame, store, clock, unit, group, level, reply)
    }

    fn system_write(&self, store: &mut [u8], [t, l, p]: Tlp, value: &[u8]) -> u8 {
        reference::system_write(store, t, l, p, value)
    }

    fn fill(&self, store: &mut [u8]) -> u8 {
        reference::fill(store)
    }

    fn tick(&self, clock: &mut [u8; 7]) -> u8 {
        reference::tick(clock)
    }

    fn number_read(&self, store: &[u8], [t, l, p]: Tlp) -> NumberRead {
        match reference::number_read(store, t, l, p) {
            Ok(number) => NumberRead {
                outcome: 0,
                number: (number.kind(), number.bits()),
            },
            Err(outcome) => NumberRead {
                outcome,
                number: archive::BEFORE,
            },
        }
    }
}

/// The proved library.
#[derive(Clone, Copy, Debug)]
pub struct Archive;

impl Gateway for Archive {
    fn name(&self) -> &'static str {
        "archive"
    }

    fn request(
        &self,
        frame: &[u8],
        store: &mut [u8],
        clock: &mut [u8; 7],
        [unit, group]: [u8; 2],
        level: u8,
        reply: &mut [u8],
    ) -> (u8, u16) {
        archive::request(frame, store, clock, unit, group, level, reply)
    }

    fn system_write(&self, store: &mut [u8], [t, l, p]: Tlp, value: &[u8]) -> u8 {
        archive::system_write(store, t, l, p, value)
    }

    fn fill(&self, store: &mut [u8]) -> u8 {
        archive::fill(store)
    }

    fn tick(&self, clock: &mut [u8; 7]) -> u8 {
        archive::tick(clock)
    }

    fn number_read(&self, store: &[u8], [t, l, p]: Tlp) -> NumberRead {
        match archive::number_read(store, t, l, p) {
            Ok(number) => NumberRead { outcome: 0, number },
            Err(refusal) => NumberRead {
                outcome: refusal.outcome,
                number: refusal.left,
            },
        }
    }
}
