//! Running sequences on two sides until they differ.

use crate::difference::Difference;
use crate::gateway::Gateway;
use crate::generate::Sequence;
use crate::shrink::shrink;
use crate::step::Step;
use crate::tally::Tally;
use crate::unit::{Answer, Unit};

/// The side that is taken as right, and the one that is held to it.
pub type Sides<'a> = [&'a dyn Gateway; 2];

/// Makes so many calls on both sides, in sequences, and gives what was tried.
///
/// # Errors
///
/// The smallest steps found that show a difference.
pub fn run(sides: Sides, seed: u64, calls: u64) -> Result<Tally, Box<Difference>> {
    let mut tally = Tally::default();
    let mut number = 0;
    while tally.calls() < calls {
        if let Some(steps) = differing(sides, Sequence::new(seed, number), &mut tally) {
            return Err(Box::new(Difference::of(sides, shrink(sides, steps))));
        }
        number += 1;
    }
    Ok(tally)
}

/// Runs one sequence; its steps up to the first that differs, if any does.
fn differing(sides: Sides, mut sequence: Sequence, tally: &mut Tally) -> Option<Vec<Step>> {
    let mut pair = Pair::new(sides);
    let mut steps = Vec::new();
    while let Some(step) = sequence.next(&pair.units[0]) {
        let agreed = pair.take(&step);
        if let Some(answer) = agreed {
            tally.count(&step, answer, &pair.units[0]);
        }
        steps.push(step);
        if agreed.is_none() {
            return Some(steps);
        }
    }
    None
}

/// How many of the steps it takes until the two sides differ, if they do.
#[must_use]
pub fn steps_to_difference(sides: Sides, steps: &[Step]) -> Option<usize> {
    let mut pair = Pair::new(sides);
    let last = steps.iter().position(|step| pair.take(step).is_none())?;
    Some(last + 1)
}

/// Both sides, each with a unit of its own.
struct Pair<'a> {
    sides: Sides<'a>,
    units: [Unit; 2],
}

impl<'a> Pair<'a> {
    fn new(sides: Sides<'a>) -> Self {
        Self {
            sides,
            units: [Unit::new(), Unit::new()],
        }
    }

    /// Makes a step on both sides: the answer, if it is the same and the
    /// buffers are.
    fn take(&mut self, step: &Step) -> Option<Answer> {
        let [right, tried] = &mut self.units;
        let answer = right.take(self.sides[0], step);
        let agreed = tried.take(self.sides[1], step) == answer && right == tried;
        agreed.then_some(answer)
    }
}
