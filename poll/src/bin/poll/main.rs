//! A host for ROC Plus devices, from the command line.

mod answers;
mod arguments;
mod commands;
mod spelling;

use arguments::{Arguments, HELP};
use poll::{Failure, Host, Line};
use std::io::{self, Write};
use std::process::ExitCode;

/// The device refused.
const REFUSED: u8 = 1;
/// The command line is wrong.
const BAD_ARGUMENTS: u8 = 2;
/// No answer, or no line.
const NO_ANSWER: u8 = 3;

fn main() -> ExitCode {
    let words: Vec<String> = std::env::args().skip(1).collect();
    if words.iter().any(|word| word == "--help") {
        print!("{HELP}");
        return ExitCode::SUCCESS;
    }
    let (arguments, command) = match arguments::read(&words) {
        Ok(read) => read,
        Err(why) => {
            eprintln!("poll: {why}\nTry poll --help.");
            return ExitCode::from(BAD_ARGUMENTS);
        }
    };
    let mut shown = String::new();
    let done = open(&arguments).and_then(|mut host| commands::run(&mut host, &command, &mut shown));
    // Nothing is lost if whoever reads this has seen enough.
    let _ = io::stdout().write_all(shown.as_bytes());
    match done {
        Ok(()) => ExitCode::SUCCESS,
        Err(failure) => {
            eprintln!("poll: {}: {failure}", arguments.host);
            ExitCode::from(match failure {
                Failure::Refused { .. } => REFUSED,
                Failure::Unsent(_) => BAD_ARGUMENTS,
                _ => NO_ANSWER,
            })
        }
    }
}

fn open(arguments: &Arguments) -> Result<Host, Failure> {
    let line = Line::open(&arguments.host, arguments.wait)?;
    Ok(Host::new(
        line,
        arguments.own,
        arguments.unit,
        arguments.wait,
    ))
}
