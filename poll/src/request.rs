//! Requests, as data and as frames.

use crate::host::bytes_of;
use reference::clock::Clock;
use reference::frame::{Address, Frame};
use reference::points::{Count, Logical, Parameter, Tlp};

/// A value for a parameter, as the bytes that are stored.
pub type Value = Vec<u8>;

/// What a host can ask.
#[derive(Clone, Debug)]
pub enum Request {
    /// Opcode 7.
    ReadClock,
    /// Opcode 8.
    SetClock(Clock),
    /// Opcode 10: some locations of a table, and the table's revision.
    ReadTable(Logical, Parameter, Count),
    /// Opcode 11: a value for each location from a start on.
    WriteTable(Logical, Parameter, Vec<Value>),
    /// Opcode 166: a value for each parameter from a start on.
    WriteBlock(Tlp, Vec<Value>),
    /// Opcode 167: some parameters from a start on.
    ReadBlock(Tlp, Count),
    /// Opcode 180.
    ReadList(Vec<Tlp>),
    /// Opcode 181.
    WriteList(Vec<(Tlp, Value)>),
}

impl Request {
    /// Its opcode.
    #[must_use]
    pub const fn opcode(&self) -> u8 {
        match self {
            Self::ReadClock => 7,
            Self::SetClock(_) => 8,
            Self::ReadTable(..) => 10,
            Self::WriteTable(..) => 11,
            Self::WriteBlock(..) => 166,
            Self::ReadBlock(..) => 167,
            Self::ReadList(_) => 180,
            Self::WriteList(_) => 181,
        }
    }

    /// Its data bytes, which may be more than a frame holds.
    #[must_use]
    pub fn data(&self) -> Vec<u8> {
        match self {
            Self::ReadClock => Vec::new(),
            Self::SetClock(clock) => clock.to_bytes().to_vec(),
            Self::ReadTable(table, start, count) => vec![table.0, start.0, count.0],
            Self::WriteTable(table, start, values) => {
                let mut data = vec![table.0, start.0, count_of(values)];
                data.extend(values.concat());
                data
            }
            Self::WriteBlock(start, values) => {
                let mut data = block(*start, count_of(values));
                data.extend(values.concat());
                data
            }
            Self::ReadBlock(start, count) => block(*start, count.0),
            Self::ReadList(list) => {
                let mut data = vec![count_of(list)];
                list.iter().for_each(|tlp| data.extend(tlp.to_bytes()));
                data
            }
            Self::WriteList(list) => {
                let mut data = vec![count_of(list)];
                for (tlp, value) in list {
                    data.extend(tlp.to_bytes());
                    data.extend(value);
                }
                data
            }
        }
    }

    /// The frame that carries it.
    ///
    /// # Panics
    ///
    /// With over 255 data bytes.
    #[must_use]
    pub fn frame(&self, destination: Address, source: Address) -> Vec<u8> {
        frame(destination, source, self.opcode(), &self.data())
    }
}

/// Any frame, with its length byte and CRC.
///
/// # Panics
///
/// With over 255 data bytes.
#[must_use]
pub fn frame(destination: Address, source: Address, opcode: u8, data: &[u8]) -> Vec<u8> {
    bytes_of(Frame {
        destination,
        source,
        opcode,
        data,
    })
}

/// The count comes before the start.
fn block(start: Tlp, count: u8) -> Vec<u8> {
    let [point_type, logical, parameter] = start.to_bytes();
    vec![point_type, logical, count, parameter]
}

/// No frame holds over 255 entries of a byte or more, so a longer list is
/// refused for its data bytes.
fn count_of<T>(list: &[T]) -> u8 {
    u8::try_from(list.len()).unwrap_or(u8::MAX)
}
