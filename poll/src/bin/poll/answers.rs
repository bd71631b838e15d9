//! The data bytes of replies, as text.

use poll::value::show;
use poll::{words, Failure};
use reference::clock::Clock;
use reference::points::{Count, Found, Logical, Tlp};

/// The answer to opcode 7.
pub fn clock(data: &[u8]) -> Result<String, Failure> {
    let (&weekday, clock) = data
        .split_last()
        .ok_or(Failure::OddReply("a clock of no bytes"))?;
    let clock = clock
        .try_into()
        .map_err(|_| Failure::OddReply("a clock has eight bytes"))?;
    let Clock {
        second,
        minute,
        hour,
        day,
        month,
        year,
    } = Clock::from_bytes(clock);
    let weekday = words::weekday(weekday);
    Ok(format!(
        "{year:04}-{month:02}-{day:02} {hour:02}:{minute:02}:{second:02} {weekday}\n"
    ))
}

/// The answer to opcode 167.
pub fn block(start: Tlp, count: Count, data: &[u8]) -> Result<String, Failure> {
    let [point_type, logical, parameter] = start.to_bytes();
    let mut values = Values::new(data);
    values.repeat(&[point_type, logical, count.0, parameter])?;
    for parameter in (parameter..=u8::MAX).take(usize::from(count.0)) {
        values.take(Tlp::from_bytes([point_type, logical, parameter]))?;
    }
    values.end()
}

/// The answer to opcode 10, with what the locations name.
pub fn table(table: Logical, located: &[Tlp], data: &[u8]) -> Result<String, Failure> {
    let mut values = Values::new(data.get(3..).unwrap_or(&[]));
    values.take(Tlp::from_bytes([99, table.0, 0]))?;
    for &tlp in located {
        values.take(tlp)?;
    }
    values.end()
}

/// The answer to opcode 180.
pub fn list(list: &[Tlp], data: &[u8]) -> Result<String, Failure> {
    let mut values = Values::new(data);
    values.repeat(&[list.len() as u8])?;
    for &tlp in list {
        values.repeat(&tlp.to_bytes())?;
        values.take(tlp)?;
    }
    values.end()
}

/// The data bytes of a reply that are left, and the text of those before.
struct Values<'a> {
    rest: &'a [u8],
    text: String,
}

impl<'a> Values<'a> {
    const fn new(data: &'a [u8]) -> Self {
        Self {
            rest: data,
            text: String::new(),
        }
    }

    /// Takes numbers that the reply repeats from the request.
    fn repeat(&mut self, numbers: &[u8]) -> Result<(), Failure> {
        self.rest = self.rest.strip_prefix(numbers).ok_or(Failure::OddReply(
            "it repeats other numbers than were asked for",
        ))?;
        Ok(())
    }

    /// Takes a value: a line of text with its parameter's name.
    fn take(&mut self, tlp: Tlp) -> Result<(), Failure> {
        let row = Found::of(tlp)
            .map_err(|_| Failure::OddReply("an unknown parameter"))?
            .row;
        let (value, rest) = self
            .rest
            .split_at_checked(row.length())
            .ok_or(Failure::OddReply("too few bytes"))?;
        self.rest = rest;
        let [point_type, logical, parameter] = tlp.to_bytes();
        let tlp = format!("{point_type}/{logical}/{parameter}");
        let value = show(row.kind, value);
        self.text += &format!("{tlp:<10} {:<32} {value}\n", row.name);
        Ok(())
    }

    fn end(self) -> Result<String, Failure> {
        if self.rest.is_empty() {
            return Ok(self.text);
        }
        Err(Failure::OddReply("spare bytes at the end"))
    }
}
