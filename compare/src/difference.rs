//! A difference between the two sides, told so that it can be acted on.

use std::fmt;

use reference::points::POINTS;
use reference::store::STORE_LENGTH;

use crate::gateway::Gateway;
use crate::hex::hex;
use crate::run::Sides;
use crate::step::Step;
use crate::unit::{Answer, Unit};

/// The most bytes of a buffer that are told one by one.
const TOLD: usize = 16;

/// Steps from a new unit, the last of which the two sides answer differently.
#[derive(Clone, Debug)]
pub struct Difference {
    steps: Vec<Step>,
    ends: [End; 2],
}

/// How the last step ended on one side.
#[derive(Clone, Debug)]
struct End {
    name: &'static str,
    answer: Answer,
    unit: Unit,
}

impl Difference {
    /// The difference that the last of some steps shows.
    ///
    /// # Panics
    ///
    /// Without a step.
    #[must_use]
    pub fn of(sides: Sides, steps: Vec<Step>) -> Self {
        Self {
            ends: sides.map(|side| End::of(side, &steps)),
            steps,
        }
    }

    /// The steps.
    #[must_use]
    pub fn steps(&self) -> &[Step] {
        &self.steps
    }
}

impl End {
    fn of(side: &dyn Gateway, steps: &[Step]) -> Self {
        let mut unit = Unit::new();
        let answers = steps.iter().map(|step| unit.take(side, step));
        Self {
            name: side.name(),
            answer: answers.last().expect("a difference has a step"),
            unit,
        }
    }
}

impl fmt::Display for Difference {
    fn fmt(&self, f: &mut fmt::Formatter) -> fmt::Result {
        let empty = Unit::new().store()[0];
        writeln!(f, "From a store with {empty:#04x} in every byte:")?;
        for step in &self.steps {
            writeln!(f, "  {step}")?;
        }
        writeln!(f, "the last step ends differently.")?;
        self.ends.iter().try_for_each(|end| end.fmt(f))?;
        self.tell_buffers(f)
    }
}

impl Difference {
    fn tell_buffers(&self, f: &mut fmt::Formatter) -> fmt::Result {
        let [right, tried] = &self.ends;
        let buffers = right.unit.buffers().into_iter().zip(tried.unit.buffers());
        for ((buffer, a), (_, b)) in buffers {
            let places = (0..a.len()).filter(|&at| a[at] != b[at]);
            for at in places.clone().take(TOLD) {
                write!(f, "{buffer} at {at}")?;
                if buffer == "store" {
                    write!(f, ", {}", named(at))?;
                }
                let (a, b) = (a[at], b[at]);
                writeln!(f, ": {} {a:#04x}, {} {b:#04x}", right.name, tried.name)?;
            }
            let count = places.count();
            if count > TOLD {
                writeln!(f, "and {} bytes more of the {buffer}", count - TOLD)?;
            }
        }
        Ok(())
    }
}

impl fmt::Display for End {
    fn fmt(&self, f: &mut fmt::Formatter) -> fmt::Result {
        let Self { name, answer, unit } = self;
        write!(f, "{name}: outcome {}", answer.outcome)?;
        if let Some((kind, bits)) = answer.number {
            write!(f, ", kind {kind}, bits {bits:#x}")?;
        }
        if let Some(length) = answer.length {
            let sent = unit.reply().get(..usize::from(length));
            let sent = sent.map_or_else(|| "longer than its space".to_owned(), hex);
            write!(f, ", length {length}, reply {sent}")?;
        }
        writeln!(f, ", clock {:?}", unit.clock())
    }
}

/// The parameter that an offset in the store belongs to.
fn named(at: usize) -> String {
    if at >= STORE_LENGTH {
        return "behind its end".to_owned();
    }
    let (point, within) = POINTS
        .iter()
        .rev()
        .find_map(|point| Some((point, at.checked_sub(point.start)?)))
        .expect("the first point type starts at 0");
    let rows = point.rows.iter().enumerate();
    let (parameter, row) = rows
        .rev()
        .find(|(_, row)| usize::from(row.offset) <= within % point.bytes)
        .expect("the first parameter starts at 0");
    let (point_type, logical) = (point.point_type.0, within / point.bytes);
    format!("{point_type},{logical},{parameter} ({})", row.name)
}
