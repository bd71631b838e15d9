//! The worked examples of docs/HOSTS.md: requests put one after the other to a
//! unit with a fresh store, answered by the reference.

use crate::layout::{parts, Way};
use crate::request::{frame, Request};
use crate::value::hex;
use reference::clock::Clock;
use reference::frame::{Address, Frame, LONGEST};
use reference::points::{Count, Logical, Parameter, Tlp};
use reference::store::STORE_LENGTH;

/// The unit of the examples, which is the gateway's as it starts by itself.
pub const UNIT: Address = Address { unit: 1, group: 2 };
/// The host of the examples.
pub const HOST: Address = Address { unit: 3, group: 0 };
/// The unit's level.
pub const LEVEL: u8 = 3;

const NOON: Clock = Clock {
    second: 0,
    minute: 0,
    hour: 12,
    day: 2,
    month: 1,
    year: 2026,
};

/// A request with the answer to it.
pub struct Example {
    /// The name of its block in the document.
    pub name: &'static str,
    /// The request's frame.
    pub request: Vec<u8>,
    /// The reply's frame; no bytes where none is sent.
    pub reply: Vec<u8>,
    /// What the locations named that an opcode 10 or 11 used.
    located: Vec<Tlp>,
}

/// What is asked, in the order of the document.
fn asked() -> Vec<(&'static str, Address, Request)> {
    let tlp = |point_type, logical, parameter| Tlp::from_bytes([point_type, logical, parameter]);
    let (table, start) = (Logical(0), Parameter(1));
    let broadcast = UNIT.broadcast();
    vec![
        ("broadcast", broadcast, Request::SetClock(NOON)),
        (
            "direct-connect",
            Address::DIRECT,
            Request::ReadBlock(tlp(98, 0, 33), Count(1)),
        ),
        ("read-clock", UNIT, Request::ReadClock),
        ("set-clock", UNIT, Request::SetClock(NOON)),
        (
            "read-block",
            UNIT,
            Request::ReadBlock(tlp(98, 0, 31), Count(3)),
        ),
        (
            "write-block",
            UNIT,
            Request::WriteBlock(tlp(98, 0, 32), vec![vec![0x10, 0x27], vec![7]]),
        ),
        (
            "read-list",
            UNIT,
            Request::ReadList(vec![tlp(98, 0, 32), tlp(124, 0, 7)]),
        ),
        (
            "write-list",
            UNIT,
            Request::WriteList(vec![
                (tlp(98, 0, 1), 1.5f32.to_le_bytes().to_vec()),
                (tlp(124, 1, 7), vec![15]),
            ]),
        ),
        (
            "fill-table",
            UNIT,
            Request::WriteBlock(tlp(99, 0, 1), vec![vec![98, 0, 1], vec![98, 0, 33]]),
        ),
        (
            "read-table",
            UNIT,
            Request::ReadTable(table, start, Count(2)),
        ),
        (
            "write-table",
            UNIT,
            Request::WriteTable(table, start, vec![2.5f32.to_le_bytes().to_vec(), vec![9]]),
        ),
        (
            "refused",
            UNIT,
            Request::WriteBlock(tlp(124, 1, 7), vec![vec![7]]),
        ),
    ]
}

/// The examples, answered.
///
/// # Panics
///
/// If the reference has no answer.
#[must_use]
pub fn examples() -> Vec<Example> {
    let mut store = [0; STORE_LENGTH];
    assert_eq!(
        reference::fill(&mut store),
        0,
        "a store of its length is filled"
    );
    let mut clock = NOON.to_bytes();
    asked()
        .into_iter()
        .map(|(name, destination, request)| {
            let located = located(&store, &request);
            let request = frame(destination, HOST, request.opcode(), &request.data());
            let mut space = [0; LONGEST];
            let (_, length) = reference::request(
                &request, &mut store, &mut clock, UNIT.unit, UNIT.group, LEVEL, &mut space,
            );
            Example {
                name,
                request,
                reply: space[..usize::from(length)].to_vec(),
                located,
            }
        })
        .collect()
}

/// What the locations of a table hold that a request uses.
fn located(store: &[u8; STORE_LENGTH], request: &Request) -> Vec<Tlp> {
    let (table, start, count) = match request {
        Request::ReadTable(table, start, count) => (table, start.0, usize::from(count.0)),
        Request::WriteTable(table, start, values) => (table, start.0, values.len()),
        _ => return Vec::new(),
    };
    (start..=u8::MAX)
        .take(count)
        .filter_map(|location| {
            let location = Tlp::from_bytes([99, table.0, location]);
            let found = reference::points::Found::of(location).ok()?;
            Some(Tlp::from_bytes(found.value(store).try_into().ok()?))
        })
        .collect()
}

impl Example {
    /// The text of its block: both frames, byte by byte.
    #[must_use]
    pub fn text(&self) -> String {
        let mut text = self.frame_text("request", &self.request, Way::Request);
        if self.reply.is_empty() {
            text += "no reply\n";
        } else {
            text += &self.frame_text("reply", &self.reply, Way::Reply);
        }
        text
    }

    fn frame_text(&self, title: &str, bytes: &[u8], way: Way) -> String {
        let mut text = format!("{title}: {}\n", hex(bytes));
        if let Ok(frame) = Frame::from_bytes(bytes) {
            for part in parts(frame, way, &self.located) {
                text += &format!("  {:<12} {}\n", hex(&part.bytes), part.words);
            }
        }
        text
    }
}

const BLOCK: &str = "```frames ";
const END: &str = "```";

/// The document with every block of frames written anew. It has one for each
/// example, in their order.
pub fn refresh(document: &str) -> Result<String, String> {
    let mut examples = examples().into_iter();
    let mut fresh = String::new();
    let mut lines = document.lines();
    while let Some(line) = lines.next() {
        fresh += line;
        fresh.push('\n');
        let Some(name) = line.strip_prefix(BLOCK) else {
            continue;
        };
        let example = examples
            .next()
            .filter(|example| example.name == name)
            .ok_or_else(|| format!("no example {name} comes here"))?;
        fresh += &example.text();
        fresh += END;
        fresh.push('\n');
        lines
            .find(|&line| line == END)
            .ok_or_else(|| format!("the block {name} does not end"))?;
    }
    match examples.next() {
        Some(example) => Err(format!("the document has no block {}", example.name)),
        None => Ok(fresh),
    }
}
