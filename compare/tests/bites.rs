//! The comparison itself: it catches the four servers that the rules want
//! rejected, and others that are wrong in one way, and tells it in few steps.

use compare::difference::Difference;
use compare::gateway::{Gateway, NumberRead, Reference};
use compare::run::run;
use compare::step::{Call, Tlp};
use reference::points::Found;

/// The reference with its requests answered in another way.
enum Broken {
    RefusesEverything,
    SendsOneReply,
    StoresNothing,
    StoresTheFirst,
    StoresBeforeAllIsChecked,
    RepliesToBroadcasts,
    WritesBehindTheReply,
}

impl Gateway for Broken {
    fn name(&self) -> &'static str {
        "broken"
    }

    fn request(
        &self,
        frame: &[u8],
        store: &mut [u8],
        clock: &mut [u8; 7],
        own: [u8; 2],
        level: u8,
        reply: &mut [u8],
    ) -> (u8, u16) {
        let before = store.to_vec();
        let (outcome, length) = Reference.request(frame, store, clock, own, level, reply);
        match self {
            Self::RefusesEverything => return (7, 0),
            Self::SendsOneReply => return (0, 8),
            Self::StoresNothing => store.copy_from_slice(&before),
            Self::StoresTheFirst if outcome == 0 => {
                if let Some((tlp, value)) = first_of_181(frame) {
                    store.copy_from_slice(&before);
                    Reference.system_write(store, tlp, value);
                }
            }
            Self::StoresBeforeAllIsChecked if outcome == 27 => {
                if let Some((tlp, value)) = first_of_181(frame) {
                    Reference.system_write(store, tlp, value);
                }
            }
            Self::RepliesToBroadcasts if outcome == 20 => return (20, 10),
            Self::WritesBehindTheReply => {
                if let Some(behind) = reply.get_mut(usize::from(length)) {
                    *behind ^= 1;
                }
            }
            _ => {}
        }
        (outcome, length)
    }

    fn system_write(&self, store: &mut [u8], tlp: Tlp, value: &[u8]) -> u8 {
        Reference.system_write(store, tlp, value)
    }

    fn fill(&self, store: &mut [u8]) -> u8 {
        Reference.fill(store)
    }

    fn tick(&self, clock: &mut [u8; 7]) -> u8 {
        Reference.tick(clock)
    }

    fn number_read(&self, store: &[u8], tlp: Tlp) -> NumberRead {
        Reference.number_read(store, tlp)
    }
}

/// The first entry of a request of opcode 181.
fn first_of_181(frame: &[u8]) -> Option<(Tlp, &[u8])> {
    let [_, _, _, _, 181, _, _, t, l, p, rest @ ..] = frame else {
        return None;
    };
    let tlp = [*t, *l, *p];
    let found = Found::of(reference::points::Tlp::from_bytes(tlp)).ok()?;
    Some((tlp, rest.get(..found.row.length())?))
}

/// The difference that is told of a broken server.
fn caught(server: &Broken) -> Box<Difference> {
    let told = run([&Reference, server], 7, 200_000).expect_err("it was not caught");
    assert!(told.to_string().contains("broken: outcome"), "{told}");
    told
}

/// The data bytes of the only step's frame.
fn data(told: &Difference) -> &[u8] {
    match told.steps() {
        [step] => match &step.call {
            Call::Request(request) => &request.frame[6..request.frame.len() - 2],
            other => panic!("{other}"),
        },
        _ => panic!("{told}"),
    }
}

#[test]
fn refuses_everything() {
    assert_eq!(data(&caught(&Broken::RefusesEverything)), []);
}

#[test]
fn sends_one_fixed_reply() {
    assert_eq!(data(&caught(&Broken::SendsOneReply)), []);
}

#[test]
fn acknowledges_and_stores_nothing() {
    let told = caught(&Broken::StoresNothing);
    // One value of four bytes or fewer is enough to show it.
    assert!(data(&told).len() <= 8, "{told}");
}

#[test]
fn stores_the_first_value_of_a_list_and_acknowledges_the_rest() {
    let told = caught(&Broken::StoresTheFirst);
    assert_eq!(data(&told)[0], 2, "{told}");
    assert!(data(&told).len() <= 9, "{told}");
}

#[test]
fn stores_an_early_value_before_a_late_one_is_found_bad() {
    let told = caught(&Broken::StoresBeforeAllIsChecked);
    assert_eq!(data(&told)[0], 2, "{told}");
}

#[test]
fn replies_to_a_broadcast() {
    let told = caught(&Broken::RepliesToBroadcasts);
    assert!(told.to_string().contains("to 0,2 from 3,4"), "{told}");
}

#[test]
fn writes_a_byte_behind_its_reply() {
    assert_eq!(data(&caught(&Broken::WritesBehindTheReply)), []);
}
