//! Frames taken apart, each part with its name.

use crate::value::{self, show};
use crate::words;
use reference::frame::{Frame, ERROR};
use reference::points::{Found, Tlp};

/// Some bytes of a frame and what they are.
#[derive(Debug, PartialEq, Eq)]
pub struct Part {
    /// The bytes.
    pub bytes: Vec<u8>,
    /// What they are.
    pub words: String,
}

/// Which way a frame goes.
#[derive(Clone, Copy, Debug, PartialEq, Eq)]
pub enum Way {
    /// From the host to a unit.
    Request,
    /// From a unit to the host.
    Reply,
}

/// The parts of a frame. The values of opcodes 10 and 11 can only be told by
/// who knows what their locations name.
#[must_use]
pub fn parts(frame: Frame, way: Way, located: &[Tlp]) -> Vec<Part> {
    let Frame {
        destination,
        source,
        opcode,
        data,
    } = frame;
    let whole = crate::host::bytes_of(frame);
    let mut cut = Cut {
        rest: &whole[..whole.len() - 2],
        parts: Vec::new(),
    };
    cut.take(2, |_| {
        format!(
            "destination: unit {}, group {}",
            destination.unit, destination.group
        )
    });
    cut.take(2, |_| {
        format!("source: unit {}, group {}", source.unit, source.group)
    });
    cut.number("opcode");
    cut.number("data length");
    match opcode {
        7 | 8 => cut.clock(),
        10 => cut.table(way, located),
        11 => cut.table(Way::Request, located),
        166 | 167 => cut.block(),
        180 => cut.list(way == Way::Reply),
        181 => cut.list(true),
        ERROR => cut.error(),
        _ => {}
    }
    if !cut.rest.is_empty() {
        cut.take(data.len(), |_| "further data".to_string());
    }
    cut.rest = &whole[whole.len() - 2..];
    cut.take(2, |_| "CRC".to_string());
    cut.parts
}

/// What is left of a frame, and the parts before.
struct Cut<'a> {
    rest: &'a [u8],
    parts: Vec<Part>,
}

impl<'a> Cut<'a> {
    /// The next bytes as a part, or as many as are left; no part of none.
    fn take(&mut self, length: usize, words: impl FnOnce(&[u8]) -> String) -> &'a [u8] {
        let (bytes, rest) = self.rest.split_at(length.min(self.rest.len()));
        self.rest = rest;
        if !bytes.is_empty() {
            self.parts.push(Part {
                bytes: bytes.to_vec(),
                words: words(bytes),
            });
        }
        bytes
    }

    /// The next byte as a number, 0 if none is left.
    fn number(&mut self, name: &str) -> u8 {
        let bytes = self.take(1, |bytes| format!("{name} {}", bytes[0]));
        bytes.first().copied().unwrap_or(0)
    }

    fn value(&mut self, tlp: Tlp) {
        let Ok(found) = Found::of(tlp) else {
            return;
        };
        self.take(found.row.length(), |bytes| {
            format!("{}: {}", found.row.name, show(found.row.kind, bytes))
        });
    }

    fn clock(&mut self) {
        for name in ["second", "minute", "hour", "day", "month"] {
            self.number(name);
        }
        self.take(2, |bytes| {
            format!("year {}", show(reference::points::Kind::Unsigned, bytes))
        });
        self.take(1, |bytes| {
            format!("weekday {}, {}", bytes[0], words::weekday(bytes[0]))
        });
    }

    /// Table, start and count; the revision in a reply; values.
    fn table(&mut self, way: Way, located: &[Tlp]) {
        let table = self.number("table");
        self.number("start: location");
        self.number("count");
        if way == Way::Reply {
            self.value(Tlp::from_bytes([99, table, 0]));
        }
        located.iter().for_each(|&tlp| self.value(tlp));
    }

    /// Type, logical, count, start; values.
    fn block(&mut self) {
        let point_type = self.number("point type");
        let logical = self.number("logical");
        let count = self.number("count");
        let start = self.number("start: parameter");
        for parameter in (start..=u8::MAX).take(usize::from(count)) {
            self.value(Tlp::from_bytes([point_type, logical, parameter]));
        }
    }

    /// A count; for each entry type, logical, parameter, and its value if
    /// values are told.
    fn list(&mut self, values: bool) {
        for _ in 0..self.number("count") {
            let tlp = self.take(3, |bytes| match bytes {
                [point_type, logical, parameter] => {
                    format!("point type {point_type}, logical {logical}, parameter {parameter}")
                }
                _ => format!("a cut entry, {}", value::hex(bytes)),
            });
            if let (true, Ok(tlp)) = (values, tlp.try_into()) {
                self.value(Tlp::from_bytes(tlp));
            }
        }
    }

    fn error(&mut self) {
        self.take(1, |bytes| {
            format!("error {}: {}", bytes[0], words::outcome(bytes[0]))
        });
        self.number("place");
    }
}
