//! The differential test: sequences of calls at random, made on the archive and
//! on the reference, with every answer and every byte of every buffer compared.
//!
//! `cargo test --release -p compare` makes some hundred thousand calls,
//! `cargo run --release -p compare -- --seed S --calls N` as many as wanted. A
//! difference is told by the smallest steps found that show it. A call that can
//! come to an outcome and never did is an error too.

pub mod cases;
pub mod difference;
pub mod gateway;
pub mod generate;
pub mod hex;
pub mod pairs;
pub mod random;
pub mod record;
pub mod rows;
pub mod run;
pub mod shrink;
pub mod step;
pub mod tally;
pub mod unit;
