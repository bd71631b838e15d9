//! Every opcode, acted on, over TCP and over a pseudo-terminal.

use crate::gateway::Gateway;
use crate::libc::SIGTERM;
use crate::pair::{ask, Pair};
use crate::serial;
use poll::examples::{examples, HOST, LEVEL, UNIT};
use poll::request::frame;
use reference::frame::Address;

/// Requests that are acted on, one after the other, from a fresh store.
fn good() -> Vec<Vec<u8>> {
    let text = b"A tag of 10";
    let all_locations = {
        let mut data = vec![99, 1, 44, 1];
        (0..44).for_each(|i| data.extend([98, 0, 1 + i]));
        data
    };
    let revision = 7.5f32.to_le_bytes();
    let mut requests = vec![
        ask(7, &[]),
        ask(8, &[59, 59, 23, 28, 2, 0xE8, 7]),
        ask(7, &[]),
        ask(167, &[98, 0, 56, 0]),
        ask(166, &[98, 0, 2, 32, 0x10, 0x27, 7]),
        ask(167, &[98, 0, 3, 31]),
        ask(166, &[[97, 5, 1, 9].as_slice(), &text[..10]].concat()),
        ask(167, &[97, 5, 10, 0]),
        ask(180, &[3, 98, 0, 33, 124, 0, 7, 97, 5, 9]),
        ask(181, &[2, 98, 0, 33, 5, 98, 0, 33, 9]),
        ask(167, &[98, 0, 1, 33]),
        ask(181, &[2, 124, 1, 1, 240, 0, 124, 1, 13, 98, 0, 1]),
        ask(167, &[124, 1, 14, 0]),
        ask(166, &[[99, 1, 1, 0].as_slice(), &revision].concat()),
        ask(166, &all_locations),
        ask(10, &[1, 1, 44]),
        ask(11, &[1, 33, 2, 77, 78]),
        ask(10, &[1, 33, 2]),
        ask(166, &[122, 0, 4, 0, 0, 0, 0, 0]),
        ask(167, &[122, 0, 24, 0]),
        ask(167, &[123, 0, 12, 0]),
    ];
    let list = |count: u8| {
        let mut data = vec![count];
        (0..count).for_each(|_| data.extend([98, 31, 61]));
        data
    };
    requests.push(ask(180, &list(63)));
    requests
}

/// Puts the good requests to a gateway of the highest level.
pub fn check_all(pair: &mut Pair) {
    for request in good() {
        assert_eq!(pair.check(&request), 0, "{request:?}");
    }
    // A broadcast is acted on in silence; the read shows that it was.
    let everyone = frame(UNIT.broadcast(), HOST, 166, &[98, 2, 1, 33, 200]);
    assert_eq!(pair.check(&everyone), 0);
    assert_eq!(pair.check(&ask(167, &[98, 2, 1, 33])), 0);
    // A unit answers to direct connect by its own address.
    let direct = frame(Address::DIRECT, HOST, 180, &[1, 98, 2, 33]);
    assert_eq!(pair.check(&direct), 0);
    pair.check_store();
}

#[test]
fn over_tcp() {
    let gateway = Gateway::at_level(3);
    check_all(&mut Pair::new(gateway.host(), 3));
    gateway.stop(SIGTERM);
}

#[test]
fn over_a_pseudo_terminal() {
    let (gateway, host) = serial::start(&[]);
    check_all(&mut Pair::new(host, 3));
    gateway.stop(SIGTERM);
}

/// A store is one for all lines.
#[test]
fn over_both() {
    let (gateway, serial) = serial::start(&[]);
    let mut pair = Pair::new(gateway.host(), 3);
    pair.check(&ask(166, &[98, 0, 1, 33, 42]));
    pair.host = serial;
    pair.check(&ask(167, &[98, 0, 1, 33]));
    gateway.stop(SIGTERM);
}

#[test]
fn the_documents_examples() {
    let gateway = Gateway::start(&[]);
    let mut pair = Pair::new(gateway.host(), LEVEL);
    for example in examples() {
        let outcome = pair.check(&example.request);
        assert_eq!(outcome != 0, example.name == "refused", "{}", example.name);
    }
    pair.check_store();
    gateway.stop(SIGTERM);
}
