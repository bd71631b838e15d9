//! Compares the archive with the reference: `--seed S --calls N`.

use std::process::ExitCode;

use compare::gateway::{Archive, Reference};
use compare::run::run;

fn main() -> ExitCode {
    let Some([seed, calls]) = arguments() else {
        eprintln!("usage: compare [--seed S] [--calls N]");
        return ExitCode::from(2);
    };
    match run([&Reference, &Archive], seed, calls) {
        Ok(tally) => {
            print!("{tally}");
            println!("{} calls, seed {seed}: no difference", tally.calls());
            let faults = tally.faults();
            faults.iter().for_each(|fault| println!("{fault}"));
            ExitCode::from(u8::from(!faults.is_empty()))
        }
        Err(difference) => {
            print!("{difference}");
            ExitCode::FAILURE
        }
    }
}

/// The seed and the number of calls.
fn arguments() -> Option<[u64; 2]> {
    let [mut seed, mut calls] = [1, 1_000_000];
    let mut words = std::env::args().skip(1);
    while let Some(word) = words.next() {
        let number = words.next()?.parse().ok()?;
        match word.as_str() {
            "--seed" => seed = number,
            "--calls" => calls = number,
            _ => return None,
        }
    }
    Some([seed, calls])
}
