//! One step of a sequence: a call, or what the firmware does to its own buffers
//! between two calls.

use std::fmt;

use reference::store::STORE_LENGTH;

use crate::hex::hex;

/// Type, logical and parameter; it need not exist.
pub type Tlp = [u8; 3];

/// A call and the length of the store that it is handed.
#[derive(Clone, Debug, PartialEq, Eq)]
pub struct Step {
    /// The call.
    pub call: Call,
    /// The bytes of the store that the call sees.
    pub store_length: usize,
}

/// What a step does.
#[derive(Clone, Debug, PartialEq, Eq)]
pub enum Call {
    /// A frame arrives.
    Request(Request),
    /// The firmware writes a parameter.
    SystemWrite(Tlp, Vec<u8>),
    /// The firmware fills the store.
    Fill,
    /// A second passes.
    Tick,
    /// The firmware reads a parameter as a number.
    NumberRead(Tlp),
    /// The firmware puts bytes into the store without asking: a store that no
    /// calls lead to is a store all the same.
    Overwrite(usize, Vec<u8>),
    /// The firmware sets the clock bytes without asking.
    SetClock([u8; 7]),
}

/// A request with all that it is answered from, the store and the clock aside.
#[derive(Clone, Debug, PartialEq, Eq)]
pub struct Request {
    /// The frame.
    pub frame: Vec<u8>,
    /// Our own address: unit, group.
    pub own: [u8; 2],
    /// The level.
    pub level: u8,
    /// The bytes of the reply space that the call sees.
    pub reply_length: usize,
}

impl Step {
    /// A call on a store of the right length.
    #[must_use]
    pub const fn new(call: Call) -> Self {
        Self {
            call,
            store_length: STORE_LENGTH,
        }
    }
}

impl fmt::Display for Step {
    fn fmt(&self, f: &mut fmt::Formatter) -> fmt::Result {
        self.call.fmt(f)?;
        if self.store_length != STORE_LENGTH {
            write!(f, ", store of {} bytes", self.store_length)?;
        }
        Ok(())
    }
}

impl fmt::Display for Call {
    fn fmt(&self, f: &mut fmt::Formatter) -> fmt::Result {
        match self {
            Self::Request(request) => request.fmt(f),
            Self::SystemWrite(tlp, value) => {
                write!(f, "system write of {tlp:?}: {}", hex(value))
            }
            Self::Fill => write!(f, "fill"),
            Self::Tick => write!(f, "tick"),
            Self::NumberRead(tlp) => write!(f, "number read of {tlp:?}"),
            Self::Overwrite(at, bytes) => {
                write!(f, "store overwritten at {at}: {}", hex(bytes))
            }
            Self::SetClock(clock) => write!(f, "clock set to {clock:?}"),
        }
    }
}

impl fmt::Display for Request {
    fn fmt(&self, f: &mut fmt::Formatter) -> fmt::Result {
        let [unit, group] = self.own;
        write!(f, "request at station {unit},{group}, level {}", self.level)?;
        write!(f, ", reply space of {} bytes: ", self.reply_length)?;
        if let [to, to_group, from, from_group, opcode, _, data @ .., _, _] = &self.frame[..] {
            write!(f, "to {to},{to_group} from {from},{from_group}, ")?;
            write!(f, "opcode {opcode}, data {data:?}, ")?;
        }
        write!(f, "frame {}", hex(&self.frame))
    }
}
