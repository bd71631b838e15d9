//! What was tried: how often each call came to each outcome.

use std::collections::{BTreeMap, BTreeSet};
use std::fmt;

use crate::pairs::{KINDS, OUTCOMES};
use crate::rows::Rows;
use crate::step::{Call, Request, Step};
use crate::unit::{Answer, Unit};

/// The ways a request can be for us, each counted apart. What ended before the
/// address counted is counted under the first.
const WAYS: [&str; 3] = ["to our address", "broadcast", "direct connect"];
const BROADCAST: usize = 1;
const DIRECT: usize = 2;

/// The requests among [`KINDS`]: the served opcodes, then any other, then none.
const SERVED: [u8; 8] = [7, 8, 10, 11, 166, 167, 180, 181];
const OTHER: usize = 8;
const NONE: usize = 9;
const REQUESTS: usize = 10;

/// The counts.
#[derive(Clone, Debug, Default)]
pub struct Tally {
    calls: u64,
    /// By way, kind and outcome.
    counts: BTreeMap<(usize, usize, u8), u64>,
    /// Kind, outcome and place of the error frames.
    places: BTreeSet<(usize, u8, u8)>,
    rows: Rows,
}

impl Tally {
    /// How many calls were made.
    #[must_use]
    pub const fn calls(&self) -> u64 {
        self.calls
    }

    /// Counts a step that both sides agreed on.
    pub fn count(&mut self, step: &Step, answer: Answer, after: &Unit) {
        let Some(kind) = kind(&step.call) else { return };
        self.calls += 1;
        self.rows.count(&step.call, answer.outcome);
        let mut way = 0;
        if let Call::Request(request) = &step.call {
            way = way_of(request, answer.outcome);
            if answer.outcome >= 20 && answer.length != Some(0) {
                self.places.insert((kind, answer.outcome, after.reply()[7]));
            }
        }
        *self.counts.entry((way, kind, answer.outcome)).or_default() += 1;
    }

    fn at(&self, way: usize, kind: usize, outcome: u8) -> u64 {
        let count = self.counts.get(&(way, kind, outcome));
        count.copied().unwrap_or_default()
    }

    /// What is wrong with the counts: a pair that can occur and never did, one
    /// that cannot and did, a row that was not tried.
    #[must_use]
    pub fn faults(&self) -> Vec<String> {
        let never = all()
            .filter(|&(way, kind, outcome)| {
                KINDS[kind].can.contains(&outcome) && self.at(way, kind, outcome) == 0
            })
            .map(|(way, kind, outcome)| said(way, kind, outcome, "never occurred"));
        let did = self
            .counts
            .keys()
            .filter(|(_, kind, outcome)| !KINDS[*kind].can.contains(outcome))
            .map(|&(way, kind, outcome)| {
                let reason = KINDS[kind].why_not(outcome);
                let reason = reason.unwrap_or("document 01 has no such outcome");
                said(way, kind, outcome, &format!("occurred, though {reason}"))
            });
        never.chain(did).chain(self.rows.faults()).collect()
    }

    fn table(&self, f: &mut fmt::Formatter, way: usize) -> fmt::Result {
        table(f, way, |kind, outcome| match self.at(way, kind, outcome) {
            0 if !KINDS[kind].can.contains(&outcome) => "-".to_owned(),
            count => count.to_string(),
        })
    }

    fn places(&self, f: &mut fmt::Formatter) -> fmt::Result {
        table(f, DIRECT, |kind, outcome| {
            let of_pair = (kind, outcome, 0)..=(kind, outcome, 255);
            match self.places.range(of_pair).count() {
                0 => "-".to_owned(),
                count => count.to_string(),
            }
        })
    }
}

impl fmt::Display for Tally {
    fn fmt(&self, f: &mut fmt::Formatter) -> fmt::Result {
        for (way, name) in WAYS.iter().enumerate() {
            writeln!(f, "Calls by outcome, {name}:")?;
            self.table(f, way)?;
        }
        writeln!(f, "Different places in error frames:")?;
        self.places(f)?;
        self.rows.fmt(f)
    }
}

/// Every way, kind and outcome that is counted: the first way has all, the
/// others the requests that came so far that the address counted.
fn all() -> impl Iterator<Item = (usize, usize, u8)> {
    let ways = 0..WAYS.len();
    ways.flat_map(|way| {
        let kinds = kinds(way);
        kinds.flat_map(move |kind| outcomes(way).map(move |outcome| (way, kind, outcome)))
    })
}

fn kinds(way: usize) -> std::ops::Range<usize> {
    0..if way == 0 { KINDS.len() } else { NONE }
}

fn outcomes(way: usize) -> impl Iterator<Item = u8> {
    let silent = 1..=8;
    OUTCOMES
        .into_iter()
        .filter(move |outcome| way == 0 || !silent.contains(outcome))
}

/// Writes a table, outcomes downwards, kinds of call across.
fn table(f: &mut fmt::Formatter, way: usize, cell: impl Fn(usize, u8) -> String) -> fmt::Result {
    write!(f, "{:>8}", "outcome")?;
    for kind in kinds(way) {
        write!(f, "{:>8}", KINDS[kind].name)?;
    }
    writeln!(f)?;
    for outcome in outcomes(way) {
        write!(f, "{outcome:>8}")?;
        for kind in kinds(way) {
            write!(f, "{:>8}", cell(kind, outcome))?;
        }
        writeln!(f)?;
    }
    writeln!(f)
}

/// The place of a call in [`KINDS`]; none for a step that is no call.
fn kind(call: &Call) -> Option<usize> {
    match call {
        Call::Request(Request { frame, .. }) => Some(match frame.get(4) {
            Some(opcode) => SERVED.iter().position(|s| s == opcode).unwrap_or(OTHER),
            None => NONE,
        }),
        Call::SystemWrite(..) => Some(REQUESTS),
        Call::NumberRead(_) => Some(REQUESTS + 1),
        Call::Fill => Some(REQUESTS + 2),
        Call::Tick => Some(REQUESTS + 3),
        Call::Overwrite(..) | Call::SetClock(_) => None,
    }
}

fn way_of(request: &Request, outcome: u8) -> usize {
    if (1..=8).contains(&outcome) {
        return 0;
    }
    match request.frame[..] {
        [0, ..] => BROADCAST,
        [240, 240, ..] => DIRECT,
        _ => 0,
    }
}

fn said(way: usize, kind: usize, outcome: u8, what: &str) -> String {
    let (kind, way) = (KINDS[kind].name, WAYS[way]);
    format!("{kind}, {way}: {outcome} {what}")
}
