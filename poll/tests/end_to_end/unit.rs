//! The unit as the reference has it.

use poll::examples::UNIT;
use reference::frame::{Address, LONGEST};
use reference::store::STORE_LENGTH;
use reference::{fill, request, tick};

/// A store and a clock at a level.
#[derive(Clone)]
pub struct Unit {
    store: Box<[u8; STORE_LENGTH]>,
    clock: [u8; 7],
    own: Address,
    level: u8,
}

impl Unit {
    /// With a fresh store, at some moment.
    pub fn fresh(level: u8) -> Self {
        let mut store = Box::new([0; STORE_LENGTH]);
        assert_eq!(fill(&mut *store), 0);
        Self {
            store,
            clock: [0, 0, 0, 1, 1, 0xD0, 0x07],
            own: UNIT,
            level,
        }
    }

    /// Sets the clock aside from any frame.
    pub fn set_clock(&mut self, clock: [u8; 7]) {
        self.clock = clock;
    }

    /// Moves the clock on by a second.
    pub fn tick(&mut self) {
        assert_eq!(tick(&mut self.clock), 0);
    }

    /// The outcome of a frame and the reply to it, no bytes where none is sent.
    pub fn answer(&mut self, frame: &[u8]) -> (u8, Vec<u8>) {
        let mut space = [0; LONGEST];
        let (outcome, length) = request(
            frame,
            &mut *self.store,
            &mut self.clock,
            self.own.unit,
            self.own.group,
            self.level,
            &mut space,
        );
        (outcome, space[..usize::from(length)].to_vec())
    }
}
