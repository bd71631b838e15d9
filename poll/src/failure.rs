//! Why a request brought nothing.

use crate::words;
use std::fmt::{self, Display, Formatter};
use std::io::{self, ErrorKind};
use std::time::Duration;

/// Why a request brought nothing.
#[derive(Debug)]
pub enum Failure {
    /// The device refused it with an error frame.
    Refused {
        /// The outcome's number.
        number: u8,
        /// The place of the fault among the request's data bytes.
        place: u8,
    },
    /// No reply came in time.
    NoAnswer(Duration),
    /// The line is lost or was never there.
    Line(io::Error),
    /// It cannot be sent, and why.
    Unsent(String),
    /// The reply is not laid out as the opcode's replies are.
    OddReply(&'static str),
}

impl From<io::Error> for Failure {
    fn from(error: io::Error) -> Self {
        Self::Line(error)
    }
}

impl Display for Failure {
    fn fmt(&self, f: &mut Formatter) -> fmt::Result {
        match self {
            Self::Refused { number, place } => {
                write!(f, "refused: {number}, {}, place {place}", words::outcome(*number))
            }
            Self::NoAnswer(wait) => write!(
                f,
                "no answer within {} ms: no such unit, a frame that it does not take, or a line that is down",
                wait.as_millis()
            ),
            Self::Line(error) if error.kind() == ErrorKind::UnexpectedEof => {
                write!(f, "the other side closed the line")
            }
            Self::Line(error) => write!(f, "the line: {error}"),
            Self::Unsent(why) => write!(f, "not sent: {why}"),
            Self::OddReply(what) => write!(f, "the reply makes no sense: {what}"),
        }
    }
}
