//! The archive held to the reference.

use compare::gateway::{Archive, Reference};
use compare::run::run;

const SEED: u64 = 2026;
const CALLS: u64 = 300_000;

#[test]
fn the_archive_answers_as_the_reference() {
    let tally = run([&Reference, &Archive], SEED, CALLS).unwrap_or_else(|difference| {
        panic!("{difference}");
    });
    println!("{tally}");
    assert_eq!(tally.faults(), [""; 0]);
}
