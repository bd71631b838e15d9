//! Measures requests; `bench/run` puts the figures together. One word says what
//! to do: `list` writes a line for each request, with its name, bytes of frame
//! and reply, and outcome; `time` a line with the nanoseconds of both sides;
//! `calls` makes the calls whose instructions are counted from outside;
//! `records` writes the requests as records, `cases` those of the program
//! `cases`.

mod requests;

use std::hint::black_box;
use std::io::{self, Write};
use std::time::{Duration, Instant};

use compare::cases::{self, File};
use compare::gateway::{Archive, Gateway, Reference};
use compare::record::record;
use compare::step::{Call, Request, Step};
use compare::unit::Unit;

use requests::Named;

const SIDES: [&dyn Gateway; 2] = [&Reference, &Archive];
/// How often each side is timed; the best counts, since whatever disturbs a
/// measurement makes it longer.
const ROUNDS: usize = 9;
/// How long it is timed.
const ROUND: Duration = Duration::from_millis(10);
/// How many calls are made between two looks at the time.
const CALLS: u32 = 100;

fn main() -> io::Result<()> {
    match std::env::args().nth(1).as_deref() {
        Some("list") => list(),
        Some("time") => time(),
        Some("calls") => calls(),
        Some("records") => {
            let all = requests::all();
            return write(all.iter().flat_map(|named| record(&named.request)));
        }
        Some("cases") => return write(cases::files().iter().flat_map(File::records)),
        _ => eprintln!("usage: bench list|time|calls|records|cases"),
    }
    Ok(())
}

fn list() {
    let mut unit = ready(&Reference);
    for Named { name, request } in requests::all() {
        let frame = request.frame.len();
        let answer = unit.take(&Reference, &Step::new(Call::Request(request)));
        let reply = answer.length.unwrap_or_default();
        println!("{name}\t{frame}\t{reply}\t{}", answer.outcome);
    }
}

fn write(bytes: impl Iterator<Item = u8>) -> io::Result<()> {
    io::stdout().write_all(&bytes.collect::<Vec<u8>>())
}

fn time() {
    let mut stations = SIDES.map(Station::new);
    for Named { request, .. } in requests::all() {
        let mut best = [f64::INFINITY; 2];
        for _ in 0..ROUNDS {
            for (best, station) in best.iter_mut().zip(&mut stations) {
                *best = best.min(station.nanoseconds(&request));
            }
        }
        println!("{:.0}\t{:.0}", best[0], best[1]);
    }
}

fn calls() {
    let mut stations = SIDES.map(Station::new);
    let all = requests::all();
    for Named { request, .. } in &all {
        for station in &mut stations {
            // The second call is what counts: the first one also binds names.
            for _ in 0..2 {
                next_part();
                counted(station, request);
            }
        }
    }
    next_part();
}

/// What is between two calls of this is one part of the count.
#[inline(never)]
fn next_part() {
    black_box(());
}

/// What happens in here is counted.
#[inline(never)]
fn counted(station: &mut Station, request: &Request) {
    station.ask(request);
}

/// One side with buffers of its own.
struct Station {
    side: &'static dyn Gateway,
    store: Vec<u8>,
    clock: [u8; 7],
    reply: [u8; 263],
}

impl Station {
    fn new(side: &'static dyn Gateway) -> Self {
        let unit = ready(side);
        Self {
            side,
            store: unit.store().to_vec(),
            clock: *unit.clock(),
            reply: [0; 263],
        }
    }

    fn ask(&mut self, request: &Request) {
        black_box(self.side.request(
            black_box(&request.frame),
            &mut self.store,
            &mut self.clock,
            request.own,
            request.level,
            &mut self.reply,
        ));
    }

    fn nanoseconds(&mut self, request: &Request) -> f64 {
        let start = Instant::now();
        let mut calls = 0;
        while start.elapsed() < ROUND {
            (0..CALLS).for_each(|_| self.ask(request));
            calls += CALLS;
        }
        start.elapsed().as_nanos() as f64 / f64::from(calls)
    }
}

/// A unit with a fresh store.
fn ready(side: &dyn Gateway) -> Unit {
    let mut unit = Unit::new();
    unit.take(side, &Step::new(Call::Fill));
    unit
}
