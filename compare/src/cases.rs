//! The files of the program `cases`: requests to run, and what it is to write.

use std::collections::BTreeMap;

use reference::frame::LONGEST;

use crate::gateway::Reference;
use crate::generate::{self, frames};
use crate::hex::hex;
use crate::random::Random;
use crate::record::{record, OWN};
use crate::step::{Call, Request, Step};
use crate::unit::{Answer, Unit};

/// The program's folder, from the repository's root.
pub const FOLDER: &str = "crates/cases";

/// What the frames are made from.
const SEED: u64 = 5;
/// How many are looked at.
const CANDIDATES: usize = 100_000;
/// A file that the program runs from a fresh store.
#[derive(Clone, Debug)]
pub struct File {
    /// Its name.
    pub name: &'static str,
    requests: Vec<Request>,
}

/// The files in the order of the run: the rules' examples that are not among
/// the proved ones, then frames at random.
#[must_use]
pub fn files() -> Vec<File> {
    let example = |name, opcode, data: &[u8]| File {
        name,
        requests: vec![frames::good(OWN, opcode, 0, data)],
    };
    vec![
        example("167-count-56", 167, &[98, 0, 56, 0]),
        example("167-count-57", 167, &[98, 0, 57, 0]),
        example("180-count-63", 180, &bytes_named(63)),
        example("180-count-64", 180, &bytes_named(64)),
        File {
            name: "frames",
            requests: frames(),
        },
    ]
}

/// What the program is to write.
#[must_use]
pub fn expected(files: &[File]) -> String {
    files.iter().map(File::expected).collect()
}

impl File {
    /// The records.
    #[must_use]
    pub fn records(&self) -> Vec<u8> {
        self.requests.iter().flat_map(record).collect()
    }

    /// The name, and a line for each request.
    fn expected(&self) -> String {
        let mut unit = fresh();
        let lines = self.requests.iter().map(|request| {
            let answer = ask(&mut unit, request);
            let length = answer.length.unwrap_or_default();
            let sent = hex(&unit.reply()[..length.into()]);
            let line = format!("{} {length} {sent}", answer.outcome);
            format!("{}\n", line.trim_end())
        });
        format!("{}\n{}", self.name, lines.collect::<String>())
    }
}

/// The data of opcode 180 for so many parameters of one byte.
fn bytes_named(count: u8) -> Vec<u8> {
    let tlps = (0..count).flat_map(|i| [98, i / 10, 33 + i % 10]);
    std::iter::once(count).chain(tlps).collect()
}

/// Requests of every opcode with every outcome that frames alone lead to, no
/// sort of them too often.
fn frames() -> Vec<Request> {
    let mut random = Random::new(SEED);
    let mut unit = fresh();
    let mut seen = BTreeMap::new();
    let mut chosen = Vec::new();
    for _ in 0..CANDIDATES {
        let Some(request) = candidate(&mut random, &unit) else {
            continue;
        };
        let mut after = unit.clone();
        let outcome = ask(&mut after, &request).outcome;
        let alike: &mut usize = seen.entry((sort(&request), outcome)).or_default();
        if *alike < most(outcome) {
            *alike += 1;
            unit = after;
            chosen.push(request);
        }
    }
    chosen
}

/// How many of one opcode that came to the same outcome are taken.
const fn most(outcome: u8) -> usize {
    match outcome {
        0 => 14,
        1..=8 => 1,
        _ => 3,
    }
}

/// A request that a record can hold.
fn candidate(random: &mut Random, unit: &Unit) -> Option<Request> {
    let request = generate::request(random, OWN, unit)?;
    let fits = request.own == OWN && request.frame.len() <= LONGEST;
    fits.then_some(Request {
        reply_length: LONGEST,
        ..request
    })
}

/// The opcode, the same for all that are not served.
fn sort(request: &Request) -> Option<u8> {
    let served = [7, 8, 10, 11, 166, 167, 180, 181];
    let opcode = request.frame.get(4).copied();
    opcode.filter(|opcode| served.contains(opcode))
}

fn fresh() -> Unit {
    let mut unit = Unit::new();
    unit.take(&Reference, &Step::new(Call::Fill));
    unit
}

/// A second passes, then the request is answered.
fn ask(unit: &mut Unit, request: &Request) -> Answer {
    unit.take(&Reference, &Step::new(Call::Tick));
    unit.take(&Reference, &Step::new(Call::Request(request.clone())))
}
