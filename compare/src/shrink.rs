//! Making a difference small: as few steps, as short frames and as low bytes as
//! still show one.

use reference::frame::{Frame, LONGEST};
use reference::store::STORE_LENGTH;

use crate::generate::frames::sealed;
use crate::run::{steps_to_difference, Sides};
use crate::step::{Call, Request, Step};

/// How often something simpler is tried before the steps are taken as they are.
const TRIES: usize = 300_000;

/// The bytes of an entry of a list with its value, or of a value alone.
const ENTRIES: [usize; 14] = [1, 2, 3, 4, 5, 6, 7, 8, 10, 11, 13, 20, 23, 43];

/// The addresses that are tried in place of others.
const OWN: [u8; 2] = [1, 2];
const HOST: [u8; 2] = [3, 4];

/// What is tried: the simplest steps so far.
struct Search<'a> {
    sides: Sides<'a>,
    steps: Vec<Step>,
    tries: usize,
}

/// Fewer and simpler steps whose last shows a difference, as that of the given
/// ones does.
#[must_use]
pub fn shrink(sides: Sides, steps: Vec<Step>) -> Vec<Step> {
    let mut search = Search {
        sides,
        steps,
        tries: 0,
    };
    loop {
        let before = search.steps.clone();
        search.drop_steps();
        search.simplify_steps();
        if search.steps == before || search.tries >= TRIES {
            return search.steps;
        }
    }
}

impl Search<'_> {
    /// Takes some steps over if they show a difference too.
    fn accept(&mut self, mut steps: Vec<Step>) -> bool {
        self.tries += 1;
        let Some(length) = steps_to_difference(self.sides, &steps) else {
            return false;
        };
        steps.truncate(length);
        self.steps = steps;
        true
    }

    fn drop_steps(&mut self) {
        let mut size = self.steps.len() / 2;
        while size > 0 {
            let mut at = 0;
            while at + size <= self.steps.len() {
                let mut fewer = self.steps.clone();
                fewer.drain(at..at + size);
                if !self.accept(fewer) {
                    at += size;
                }
            }
            size /= 2;
        }
    }

    fn simplify_steps(&mut self) {
        let mut at = 0;
        while at < self.steps.len() {
            self.simplify(at);
            at += 1;
        }
    }

    /// Goes through what is simpler than a step once. After a success it goes
    /// on where it was: what was tried in vain before is left to the next round.
    fn simplify(&mut self, at: usize) {
        let mut tried = 0;
        while let Some(step) = self.steps.get(at).cloned() {
            let mut candidates = simpler(&step).enumerate().skip(tried);
            let taken = candidates.find(|(_, simpler)| {
                let mut steps = self.steps.clone();
                steps[at] = simpler.clone();
                self.tries < TRIES && self.accept(steps)
            });
            match taken {
                Some((number, _)) => tried = number,
                None => return,
            }
        }
    }
}

type Simpler<'a, T> = Box<dyn Iterator<Item = T> + 'a>;

/// Steps that are simpler than a step in one way each.
fn simpler(step: &Step) -> Simpler<'_, Step> {
    let right_length = (step.store_length != STORE_LENGTH).then(|| Step::new(step.call.clone()));
    let calls: Simpler<Call> = match &step.call {
        Call::Request(request) => Box::new(simpler_request(request).map(Call::Request)),
        Call::SystemWrite(tlp, value) => Box::new(
            simpler_bytes(value)
                .map(|value| Call::SystemWrite(*tlp, value))
                .chain(lower(tlp).map(|tlp| Call::SystemWrite(fixed(&tlp), value.clone()))),
        ),
        Call::NumberRead(tlp) => Box::new(lower(tlp).map(|tlp| Call::NumberRead(fixed(&tlp)))),
        Call::Overwrite(at, bytes) => Box::new(
            sizes(bytes.len())
                .map(move |size| Call::Overwrite(at + size, bytes[size..].to_vec()))
                .chain(simpler_bytes(bytes).map(|bytes| Call::Overwrite(*at, bytes))),
        ),
        Call::SetClock(clock) => Box::new(lower(clock).map(|clock| Call::SetClock(fixed(&clock)))),
        Call::Fill | Call::Tick => Box::new(std::iter::empty()),
    };
    Box::new(right_length.into_iter().chain(calls.map(|call| Step {
        call,
        store_length: step.store_length,
    })))
}

fn simpler_request(request: &Request) -> Simpler<'_, Request> {
    let settings = [
        Request {
            reply_length: LONGEST,
            ..request.clone()
        },
        readdressed(request, |_| OWN),
        readdressed(request, |to| match to {
            _ if to == request.own => OWN,
            [0, group] if group == request.own[1] => [0, OWN[1]],
            other => other,
        }),
    ];
    let changed = settings
        .into_iter()
        .filter(move |setting| setting != request);
    let levels = (0..request.level).map(|level| Request {
        level,
        ..request.clone()
    });
    let frames = simpler_frame(&request.frame).map(|frame| Request {
        frame,
        ..request.clone()
    });
    Box::new(changed.chain(levels).chain(frames))
}

/// The same request at another station, from another one.
fn readdressed(request: &Request, destination: impl Fn([u8; 2]) -> [u8; 2]) -> Request {
    let Ok(frame) = Frame::from_bytes(&request.frame) else {
        return request.clone();
    };
    let destination = destination([frame.destination.unit, frame.destination.group]);
    Request {
        frame: sealed(destination, HOST, frame.opcode, frame.data),
        own: OWN,
        ..request.clone()
    }
}

/// Simpler frames: of a whole one its data is made simpler, with length and CRC
/// worked anew; of any other its bytes are.
fn simpler_frame(frame: &[u8]) -> Simpler<'_, Vec<u8>> {
    let Ok(Frame { opcode, data, .. }) = Frame::from_bytes(frame) else {
        return simpler_bytes(frame);
    };
    let sealed = move |data: Vec<u8>| {
        let (to, from) = ([frame[0], frame[1]], [frame[2], frame[3]]);
        sealed(to, from, opcode, &data)
    };
    let candidates = fewer_entries(data).chain(simpler_bytes(data));
    Box::new(candidates.map(sealed))
}

/// Data with an entry less, for opcodes that count entries at place 0 or 2.
fn fewer_entries(data: &[u8]) -> impl Iterator<Item = Vec<u8>> + '_ {
    let counted = [0, 2]
        .into_iter()
        .filter(|&count| data.get(count).is_some_and(|&byte| byte > 0));
    counted.flat_map(move |count| {
        ENTRIES.into_iter().flat_map(move |size| {
            (count + 1..(data.len() + 1).saturating_sub(size)).map(move |at| {
                let mut fewer = data.to_vec();
                fewer.drain(at..at + size);
                fewer[count] -= 1;
                fewer
            })
        })
    })
}

/// Shorter bytes, then lower ones.
fn simpler_bytes(bytes: &[u8]) -> Simpler<'_, Vec<u8>> {
    let shorter = sizes(bytes.len()).map(|size| bytes[..bytes.len() - size].to_vec());
    Box::new(shorter.chain(lower(bytes)))
}

/// How many bytes to leave out: half, a quarter, down to one.
fn sizes(length: usize) -> impl Iterator<Item = usize> {
    std::iter::successors(Some(length.div_ceil(2)), |size| Some(size / 2))
        .take_while(|&size| size > 0)
}

/// The same bytes with one of them lower.
fn lower(bytes: &[u8]) -> impl Iterator<Item = Vec<u8>> + '_ {
    bytes.iter().enumerate().flat_map(move |(at, &byte)| {
        let lower = [0, byte / 2, byte.saturating_sub(1)];
        let lower = lower.into_iter().filter(move |&low| low < byte);
        lower.map(move |low| {
            let mut lowered = bytes.to_vec();
            lowered[at] = low;
            lowered
        })
    })
}

/// Bytes whose number did not change, as an array again.
fn fixed<const N: usize>(bytes: &[u8]) -> [u8; N] {
    bytes.try_into().expect("as many as before")
}
