//! The archive in a program of its own, `bridge.c`, which is for the archive's
//! machine and runs under an emulator. A call goes there and comes back whole,
//! with every buffer; `bridge.c` says how.

use std::cell::RefCell;
use std::io::{Read, Write};
use std::process::{Child, Command, Stdio};

/// The bytes of a call before its buffers.
const HEAD: usize = 34;

/// What a call takes and leaves, apart from the buffers. The same bytes go both
/// ways: which call it is on the way there, its outcome on the way back.
struct Head {
    call_or_outcome: u8,
    numbers: [u8; 3],
    lengths: [usize; 3],
    clock: [u8; 7],
    kind: u8,
    length: u16,
    bits: u64,
}

/// The calls, as `bridge.c` numbers them.
const REQUEST: u8 = 0;
const SYSTEM_WRITE: u8 = 1;
const FILL: u8 = 2;
const TICK: u8 = 3;
const NUMBER_READ: u8 = 4;

pub fn request(
    frame: &[u8],
    store: &mut [u8],
    clock: &mut [u8; 7],
    numbers: [u8; 3],
    reply: &mut [u8],
    length: &mut u16,
) -> u8 {
    let mut head = Head {
        clock: *clock,
        length: *length,
        ..Head::of(REQUEST, numbers)
    };
    let outcome = head.call(store, frame, reply);
    *clock = head.clock;
    *length = head.length;
    outcome
}

pub fn system_write(store: &mut [u8], tlp: [u8; 3], value: &[u8]) -> u8 {
    Head::of(SYSTEM_WRITE, tlp).call(store, value, &mut [])
}

pub fn fill(store: &mut [u8]) -> u8 {
    Head::of(FILL, [0; 3]).call(store, &[], &mut [])
}

pub fn tick(clock: &mut [u8; 7]) -> u8 {
    let mut head = Head {
        clock: *clock,
        ..Head::of(TICK, [0; 3])
    };
    let outcome = head.call(&mut [], &[], &mut []);
    *clock = head.clock;
    outcome
}

pub fn number_read(store: &[u8], tlp: [u8; 3], kind: &mut u8, bits: &mut u64) -> u8 {
    let mut head = Head {
        kind: *kind,
        bits: *bits,
        ..Head::of(NUMBER_READ, tlp)
    };
    // The header says of this store that it is only read, so it is given back
    // to nobody.
    let outcome = head.call(&mut store.to_vec(), &[], &mut []);
    *kind = head.kind;
    *bits = head.bits;
    outcome
}

impl Head {
    const fn of(call: u8, numbers: [u8; 3]) -> Self {
        Self {
            call_or_outcome: call,
            numbers,
            lengths: [0; 3],
            clock: [0; 7],
            kind: 0,
            length: 0,
            bits: 0,
        }
    }

    /// Makes the call with these buffers and gives its outcome.
    fn call(&mut self, store: &mut [u8], input: &[u8], reply: &mut [u8]) -> u8 {
        self.lengths = [store.len(), input.len(), reply.len()];
        BRIDGE.with_borrow_mut(|bridge| {
            let sent = [&self.to_bytes(), &*store, input, &*reply].concat();
            let mut back = vec![0; HEAD + store.len() + reply.len()];
            bridge.exchange(&sent, &mut back);
            let (head, buffers) = back.split_at(HEAD);
            self.take(head);
            let (store_after, reply_after) = buffers.split_at(store.len());
            store.copy_from_slice(store_after);
            reply.copy_from_slice(reply_after);
        });
        self.call_or_outcome
    }

    fn to_bytes(&self) -> [u8; HEAD] {
        let mut bytes = [0; HEAD];
        bytes[0] = self.call_or_outcome;
        bytes[1..4].copy_from_slice(&self.numbers);
        for (place, length) in bytes[4..16].chunks_mut(4).zip(self.lengths) {
            place.copy_from_slice(&(length as u32).to_le_bytes());
        }
        bytes[16..23].copy_from_slice(&self.clock);
        bytes[23] = self.kind;
        bytes[24..26].copy_from_slice(&self.length.to_le_bytes());
        bytes[26..].copy_from_slice(&self.bits.to_le_bytes());
        bytes
    }

    fn take(&mut self, bytes: &[u8]) {
        self.call_or_outcome = bytes[0];
        self.clock.copy_from_slice(&bytes[16..23]);
        self.kind = bytes[23];
        self.length = u16::from_le_bytes([bytes[24], bytes[25]]);
        self.bits = bytes[26..]
            .iter()
            .rev()
            .fold(0, |bits, &byte| bits << 8 | u64::from(byte));
    }
}

/// The running program.
struct Bridge(Child);

thread_local! {
    /// Each thread has a program of its own, so that calls do not wait for each
    /// other.
    static BRIDGE: RefCell<Bridge> = RefCell::new(Bridge::start());
}

impl Bridge {
    fn start() -> Self {
        let mut command = Command::new(env!("TYURKANIM_EMULATOR"));
        command.arg(env!("TYURKANIM_BRIDGE"));
        let started = command.stdin(Stdio::piped()).stdout(Stdio::piped()).spawn();
        Self(started.unwrap_or_else(|error| panic!("{command:?}: {error}")))
    }

    fn exchange(&mut self, sent: &[u8], back: &mut [u8]) {
        let Child { stdin, stdout, .. } = &mut self.0;
        let sent = stdin.as_mut().map(|stdin| stdin.write_all(sent));
        let back = stdout.as_mut().map(|stdout| stdout.read_exact(back));
        if !matches!((sent, back), (Some(Ok(())), Some(Ok(())))) {
            panic!("the archive's program ended: {:?}", self.0.wait());
        }
    }
}

impl Drop for Bridge {
    /// It ends when its input does.
    fn drop(&mut self) {
        self.0.stdin = None;
        // Its status says nothing that the last answer did not.
        let _ = self.0.wait();
    }
}
