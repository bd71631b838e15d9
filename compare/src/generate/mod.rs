//! Sequences of steps at random, near enough to good ones to get far. Each step
//! is made for the store and the clock as they stand before it.

mod block;
mod clocks;
pub mod frames;
mod list;
mod table;
mod tlps;
mod values;

use reference::clock::Clock;
use reference::store::STORE_LENGTH;

use crate::random::Random;
use crate::step::{Call, Request, Step};
use crate::unit::{Unit, SPARE};

/// The most steps of a sequence; the least are an eighth of it.
const LONGEST: usize = 64;

/// A request for a unit as it stands, now and then one that sets up a table.
pub fn request(random: &mut Random, own: [u8; 2], unit: &Unit) -> Option<Request> {
    if random.percent(90) {
        return Some(frames::request(random, own, unit));
    }
    match table::set_up(random, own) {
        Call::Request(request) => Some(request),
        _ => None,
    }
}

/// The steps of one sequence, made one after the other.
#[derive(Clone, Debug)]
pub struct Sequence {
    random: Random,
    own: [u8; 2],
    /// How many tables are set up before the rest.
    tables: usize,
    taken: usize,
    length: usize,
}

impl Sequence {
    /// The sequence that a seed and a number make.
    #[must_use]
    pub fn new(seed: u64, number: u64) -> Self {
        let start = Random::new(seed).number();
        let mut random = Random::new(start.wrapping_add(number));
        Self {
            own: frames::own_address(&mut random),
            tables: random.of(&[0, 1, 2, 2, 3, 4, 5]),
            taken: 0,
            length: LONGEST / 8 + random.below(LONGEST - LONGEST / 8 + 1),
            random,
        }
    }

    /// The next step, for a unit that took the earlier ones.
    pub fn next(&mut self, unit: &Unit) -> Option<Step> {
        let taken = self.taken;
        self.taken += 1;
        let call = if taken == 0 {
            self.begin()
        } else if taken <= self.tables {
            table::set_up(&mut self.random, self.own)
        } else if taken < self.length {
            self.any(unit)
        } else {
            return None;
        };
        let store_length = match call {
            Call::Overwrite(..) => STORE_LENGTH,
            _ => self.store_length(),
        };
        Some(Step { call, store_length })
    }

    /// The firmware fills the store, or has one with anything in it.
    fn begin(&mut self) -> Call {
        if self.random.percent(90) {
            return Call::Fill;
        }
        Call::Overwrite(0, self.random.bytes(STORE_LENGTH))
    }

    fn any(&mut self, unit: &Unit) -> Call {
        let random = &mut self.random;
        // With an invalid date every request comes to 3, so it does not stay.
        if !Clock::from_bytes(*unit.clock()).is_valid() && random.percent(50) {
            return Call::SetClock(clocks::good(random));
        }
        match random.below(100) {
            0..72 => Call::Request(frames::request(random, self.own, unit)),
            72..82 => {
                let (tlp, value) = values::system_write(random, unit.store());
                Call::SystemWrite(tlp, value)
            }
            82..89 => Call::NumberRead(tlps::any(random)),
            89..93 => Call::Tick,
            93..95 => Call::SetClock(clocks::any(random)),
            95..98 => table::set_up(random, self.own),
            98 if random.percent(40) => Call::Fill,
            _ => {
                let found = tlps::existing(random);
                Call::Overwrite(found.offset, random.bytes(found.row.length()))
            }
        }
    }

    fn store_length(&mut self) -> usize {
        let random = &mut self.random;
        if random.percent(98) {
            return STORE_LENGTH;
        }
        let any = random.below(STORE_LENGTH);
        random.of(&[
            0,
            any,
            STORE_LENGTH - 1,
            STORE_LENGTH + 1,
            STORE_LENGTH + SPARE,
        ])
    }
}
