//! The gateway and the reference, asked the same.

use crate::unit::Unit;
use poll::examples::{HOST, UNIT};
use poll::request::frame;
use poll::Host;
use reference::points::POINTS;

/// More seconds than a test takes.
const SECONDS: usize = 120;

const READ_CLOCK: u8 = 7;

/// A frame from the host to the unit.
pub fn ask(opcode: u8, data: &[u8]) -> Vec<u8> {
    frame(UNIT, HOST, opcode, data)
}

/// A host at a fresh gateway, and a unit of the reference that is kept in step
/// with it.
pub struct Pair {
    pub host: Host,
    pub unit: Unit,
}

impl Pair {
    /// Takes the gateway's clock over, which alone is not the same in every
    /// fresh gateway.
    pub fn new(mut host: Host, level: u8) -> Self {
        let mut unit = Unit::fresh(level);
        let reply = host.exchange(&ask(READ_CLOCK, &[])).expect("the clock");
        unit.set_clock(reply[6..13].try_into().expect("seven bytes"));
        Self { host, unit }
    }

    /// Puts a frame to both, and gives the outcome.
    #[track_caller]
    pub fn check(&mut self, frame: &[u8]) -> u8 {
        self.host.send(frame).expect("a line");
        self.check_sent(frame)
    }

    /// Holds the gateway's answer to a frame that was sent to the reference's.
    /// If none is due, whatever comes next shows whether one came.
    #[track_caller]
    pub fn check_sent(&mut self, frame: &[u8]) -> u8 {
        let before = self.unit.clone();
        let (outcome, expected) = self.unit.answer(frame);
        if expected.is_empty() {
            return outcome;
        }
        let reply = match self.host.receive() {
            Ok(reply) => reply,
            Err(failure) => panic!("{frame:?}: {failure}, in the place of {expected:?}"),
        };
        let mut expected = expected;
        if frame[4] == READ_CLOCK && outcome == 0 {
            // The gateway's clock goes on by itself.
            self.unit = before;
            for _ in 0..SECONDS {
                if expected == reply {
                    break;
                }
                self.unit.tick();
                (_, expected) = self.unit.answer(frame);
            }
        }
        assert_eq!(reply, expected, "the reply to {frame:?}");
        outcome
    }

    /// Reads every parameter that the level may read, from both.
    #[track_caller]
    pub fn check_store(&mut self) {
        for point in &POINTS {
            for logical in 0..point.logicals {
                for start in (0..point.rows.len() as u8).step_by(5) {
                    let count = (point.rows.len() as u8 - start).min(5);
                    self.check(&ask(167, &[point.point_type.0, logical, count, start]));
                }
            }
        }
    }

    /// Nothing that was sent has an answer: the next thing that comes is the
    /// reply to a request for the clock.
    #[track_caller]
    pub fn check_silent(&mut self) {
        assert_eq!(self.check(&ask(READ_CLOCK, &[])), 0);
    }
}
