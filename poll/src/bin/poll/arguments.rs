//! The command line.

use crate::spelling::{address, block, bytes, clock, list, number, point, tlp, wait};
use poll::request::Request;
use reference::frame::Address;
use reference::points::{Count, Logical, Parameter, Point};
use std::time::Duration;

pub const HELP: &str = "\
Usage: poll [OPTION]... COMMAND

  read TYPE LOGICAL PARAMETER [COUNT]        parameters in a row (opcode 167)
  write TYPE LOGICAL PARAMETER VALUE...      values in a row (166)
  list TYPE/LOGICAL/PARAMETER...             any parameters (180)
  list TYPE/LOGICAL/PARAMETER=VALUE...       values for any parameters (181)
  table TABLE LOCATION COUNT                 what a table's locations name (10)
  table TABLE LOCATION set VALUE...          values for what they name (11)
  dump TYPE [LOGICAL]                        all parameters of a point type
  clock                                      the clock (7)
  clock set YYYY-MM-DD HH:MM:SS              sets the clock (8)
  raw HEX...                                 bytes as they are, then one frame

  --host ADDRESS:PORT  where it is; a path with a / is a serial device, which
                       is to be set raw before (127.0.0.1:4000)
  --unit UNIT          its unit, 0 for all of its group, which answer nothing (1)
  --group GROUP        its group (2)
  --from UNIT,GROUP    the host's address (3,0)
  --wait MILLISECONDS  how long to wait for an answer (2000)

A value is a number, a text, or a TLP as TYPE,LOGICAL,PARAMETER.
Status: 0 done, 1 refused, 2 bad command line, 3 no answer.
";

/// Where and whom to ask.
pub struct Arguments {
    pub host: String,
    pub own: Address,
    pub unit: Address,
    pub wait: Duration,
}

/// What to do there.
#[derive(Debug)]
pub enum Command {
    Ask(Request),
    /// A value for each location of a table; their kinds are known once the
    /// locations are read.
    WriteTable(Logical, Parameter, Vec<String>),
    Dump(&'static Point, Option<Logical>),
    Raw(Vec<u8>),
}

/// Reads the command line.
pub fn read(words: &[String]) -> Result<(Arguments, Command), String> {
    let mut arguments = Arguments {
        host: "127.0.0.1:4000".to_string(),
        own: Address { unit: 3, group: 0 },
        unit: Address { unit: 1, group: 2 },
        wait: Duration::from_secs(2),
    };
    let mut rest = words.iter().map(String::as_str);
    let mut command = Vec::new();
    while let Some(word) = rest.next() {
        if !word.starts_with("--") {
            command.push(word);
            continue;
        }
        let value = rest.next().ok_or(format!("{word} needs a value"))?;
        match word {
            "--host" => arguments.host = value.to_string(),
            "--unit" => arguments.unit.unit = number(value)?,
            "--group" => arguments.unit.group = number(value)?,
            "--from" => arguments.own = address(value)?,
            "--wait" => arguments.wait = wait(value)?,
            _ => return Err(format!("no option {word}")),
        }
    }
    Ok((arguments, read_command(&command)?))
}

fn read_command(words: &[&str]) -> Result<Command, String> {
    let command = match *words {
        ["read", t, l, p] => Command::Ask(Request::ReadBlock(tlp(t, l, p)?, Count(1))),
        ["read", t, l, p, count] => {
            Command::Ask(Request::ReadBlock(tlp(t, l, p)?, Count(number(count)?)))
        }
        ["write", t, l, p, ref values @ ..] if !values.is_empty() => {
            let start = tlp(t, l, p)?;
            Command::Ask(Request::WriteBlock(start, block(start, values)?))
        }
        ["list", ref entries @ ..] if !entries.is_empty() => Command::Ask(list(entries)?),
        ["table", table, start, "set", ref values @ ..] if !values.is_empty() => {
            let values = values.iter().map(|value| value.to_string()).collect();
            Command::WriteTable(Logical(number(table)?), Parameter(number(start)?), values)
        }
        ["table", table, start, count] => Command::Ask(Request::ReadTable(
            Logical(number(table)?),
            Parameter(number(start)?),
            Count(number(count)?),
        )),
        ["dump", t] => Command::Dump(point(t)?, None),
        ["dump", t, l] => Command::Dump(point(t)?, Some(Logical(number(l)?))),
        ["clock"] => Command::Ask(Request::ReadClock),
        ["clock", "set", date, time] => Command::Ask(Request::SetClock(clock(date, time)?)),
        ["raw", ref digits @ ..] if !digits.is_empty() => Command::Raw(bytes(&digits.concat())?),
        [] => return Err("no command".to_string()),
        [name, ..] => return Err(format!("'{name}' with these words is no command")),
    };
    if let Command::Ask(request) = &command {
        fits(request)?;
    }
    Ok(command)
}

/// Refuses a request that no frame can carry.
pub fn fits(request: &Request) -> Result<(), String> {
    match request.data().len() {
        0..=255 => Ok(()),
        n => Err(format!("{n} data bytes; a frame holds at most 255")),
    }
}
