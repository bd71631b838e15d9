//! What each command asks.

use crate::answers;
use crate::arguments::{fits, Command};
use crate::spelling;
use poll::layout::{parts, Way};
use poll::request::Request;
use poll::value::hex;
use poll::{Failure, Host, Response};
use reference::frame::{Frame, ERROR};
use reference::points::{Count, Logical, Parameter, Point, Tlp};

/// The most data bytes of a frame.
const MOST: usize = 255;

/// Carries a command out and adds its answer to what is shown.
pub fn run(host: &mut Host, command: &Command, shown: &mut String) -> Result<(), Failure> {
    match command {
        Command::Ask(request) => ask(host, request, shown),
        Command::WriteTable(table, start, values) => {
            let request = write_table(host, *table, *start, values)?;
            ask(host, &request, shown)
        }
        Command::Dump(point, logical) => dump(host, point, *logical, shown),
        Command::Raw(bytes) => raw(host, bytes, shown),
    }
}

fn ask(host: &mut Host, request: &Request, shown: &mut String) -> Result<(), Failure> {
    let data = match host.ask(request)? {
        Response::Reply(data) => data,
        Response::Broadcast => {
            let group = host.unit.group;
            *shown += &format!("sent to all units of group {group}; none answers\n");
            return Ok(());
        }
    };
    *shown += &match request {
        Request::ReadClock => answers::clock(&data)?,
        Request::ReadBlock(start, count) => answers::block(*start, *count, &data)?,
        Request::ReadTable(table, start, count) => {
            let located = locations(host, *table, *start, *count)?;
            answers::table(*table, &located, &data)?
        }
        Request::ReadList(list) => answers::list(list, &data)?,
        _ => "done\n".to_string(),
    };
    Ok(())
}

/// What some locations of a table name, which says what their values are.
fn locations(
    host: &mut Host,
    table: Logical,
    start: Parameter,
    count: Count,
) -> Result<Vec<Tlp>, Failure> {
    let first = Tlp::from_bytes([99, table.0, start.0]);
    let Response::Reply(data) = host.ask(&Request::ReadBlock(first, count))? else {
        let why = "what the locations name cannot be read by broadcast";
        return Err(Failure::Unsent(why.to_string()));
    };
    let named = data.get(4..).unwrap_or(&[]).chunks_exact(3);
    Ok(named
        .map(|tlp| Tlp::from_bytes([tlp[0], tlp[1], tlp[2]]))
        .collect())
}

/// The request that writes values given as text to what some locations name.
fn write_table(
    host: &mut Host,
    table: Logical,
    start: Parameter,
    values: &[String],
) -> Result<Request, Failure> {
    let count = Count(u8::try_from(values.len()).unwrap_or(u8::MAX));
    let located = locations(host, table, start, count)?;
    let encoded = located
        .iter()
        .zip(values)
        .map(|(&tlp, text)| spelling::value(tlp, text))
        .collect::<Result<_, _>>()
        .map_err(Failure::Unsent)?;
    let request = Request::WriteTable(table, start, encoded);
    fits(&request).map_err(Failure::Unsent)?;
    Ok(request)
}

/// All parameters of one logical or of all, in as few requests as hold them.
fn dump(
    host: &mut Host,
    point: &'static Point,
    logical: Option<Logical>,
    shown: &mut String,
) -> Result<(), Failure> {
    let logicals = match logical {
        Some(logical) => logical.0..=logical.0,
        None => 0..=point.logicals - 1,
    };
    for logical in logicals {
        let mut start = 0;
        while start < point.rows.len() {
            let count = longest_block(point, start);
            let first = Tlp::from_bytes([point.point_type.0, logical, start as u8]);
            let block = Request::ReadBlock(first, Count(count as u8));
            ask(host, &block, shown)?;
            start += count;
        }
    }
    Ok(())
}

/// How many parameters from a start on fit in a reply, behind the four numbers
/// that name them.
fn longest_block(point: &Point, start: usize) -> usize {
    let mut left = MOST - 4;
    point.rows[start..]
        .iter()
        .take_while(|row| {
            let fits = row.length() <= left;
            left = left.saturating_sub(row.length());
            fits
        })
        .count()
}

fn raw(host: &mut Host, bytes: &[u8], shown: &mut String) -> Result<(), Failure> {
    let answer = host.exchange(bytes)?;
    let Ok(frame) = Frame::from_bytes(&answer) else {
        return Err(Failure::OddReply("no frame"));
    };
    *shown += &format!("{}\n", hex(&answer));
    for part in parts(frame, Way::Reply, &[]) {
        *shown += &format!("  {:<12} {}\n", hex(&part.bytes), part.words);
    }
    match (frame.opcode, frame.data) {
        (ERROR, &[number, place]) => Err(Failure::Refused { number, place }),
        _ => Ok(()),
    }
}
