//! Every refusal that a frame can reach, at every level.

use crate::gateway::Gateway;
use crate::libc::SIGTERM;
use crate::pair::{ask, Pair};
use poll::examples::{HOST, UNIT};
use poll::request::frame;
use std::collections::BTreeSet;

/// Opcode, data, and the outcome and place to come.
type Case = (u8, &'static [u8], u8, u8);

const ANY_LEVEL: &[Case] = &[
    (17, &[], 20, 0),
    (255, &[1, 2], 20, 0),
    (7, &[0], 21, 0),
    (167, &[98, 0, 1], 21, 3),
    (167, &[98, 0, 1, 23, 0], 21, 4),
    (180, &[2, 98, 0, 1], 21, 4),
    (167, &[100, 0, 1, 0], 22, 0),
    (180, &[1, 0, 0, 0], 22, 1),
    (10, &[0, 1, 1], 22, 1),
    (167, &[98, 32, 1, 0], 23, 1),
    (180, &[1, 99, 16, 0], 23, 2),
    (167, &[98, 0, 1, 62], 24, 3),
    (167, &[98, 0, 2, 61], 24, 3),
    (180, &[1, 97, 0, 10], 24, 3),
    (167, &[98, 0, 57, 0], 28, 0),
    (10, &[16, 1, 1], 29, 0),
    (10, &[0, 0, 1], 29, 1),
    (10, &[0, 45, 1], 29, 1),
    (11, &[0, 2, 44], 29, 2),
    (10, &[0, 1, 0], 30, 2),
    (167, &[98, 0, 0, 0], 30, 2),
    (180, &[0], 30, 0),
];

const LEVEL_0: &[Case] = &[
    (8, &[0, 0, 0, 1, 1, 0xD0, 7], 25, 0),
    (166, &[98, 0, 1, 33, 5], 25, 0),
    (181, &[1, 97, 0, 0], 25, 1),
    (167, &[122, 0, 1, 0], 25, 0),
    (180, &[2, 98, 0, 0, 123, 0, 0], 25, 4),
];

const LEVEL_1: &[Case] = &[
    (8, &[0, 0, 0, 1, 1, 0xD0, 7], 25, 0),
    (166, &[124, 1, 1, 1, 240, 0], 25, 0),
    (166, &[99, 0, 1, 1, 98, 0, 0], 25, 0),
    (167, &[123, 0, 1, 0], 25, 0),
    (166, &[98, 0, 1, 1, 0, 0, 128, 127], 27, 4),
    (181, &[2, 98, 0, 33, 5, 98, 0, 62, 9], 24, 7),
];

const LEVEL_2: &[Case] = &[
    (166, &[122, 0, 1, 0, 1], 25, 0),
    (181, &[1, 123, 0, 0], 25, 1),
    (166, &[124, 0, 1, 1, 240, 0], 26, 4),
    (166, &[124, 1, 1, 1, 241, 0], 27, 4),
    (166, &[124, 1, 1, 7, 7], 27, 4),
    (8, &[60, 0, 0, 1, 1, 0xD0, 7], 31, 0),
];

const LEVEL_3: &[Case] = &[
    (166, &[122, 0, 1, 4, 1], 26, 4),
    (181, &[2, 98, 0, 33, 1, 122, 0, 9, 1], 26, 5),
    (
        166,
        &[97, 0, 1, 0, 31, 32, 32, 32, 32, 32, 32, 32, 32, 32],
        27,
        4,
    ),
    (181, &[1, 99, 0, 1, 99, 0, 45], 27, 4),
    (166, &[98, 0, 2, 33, 5], 21, 5),
    (166, &[98, 0, 1, 33, 5, 6], 21, 5),
    (8, &[0, 60, 0, 1, 1, 0xD0, 7], 31, 1),
    (8, &[0, 0, 24, 1, 1, 0xD0, 7], 31, 2),
    (8, &[0, 0, 0, 29, 2, 0xE7, 7], 31, 3),
    (8, &[0, 0, 0, 1, 13, 0xD0, 7], 31, 4),
    (8, &[0, 0, 0, 1, 1, 0x34, 8], 31, 5),
    (8, &[0, 0, 0, 1, 1, 0xD0, 7, 0], 21, 7),
];

fn check(pair: &mut Pair, cases: &[Case], seen: &mut BTreeSet<u8>) {
    for &(opcode, data, outcome, place) in cases {
        let request = ask(opcode, data);
        assert_eq!(pair.check(&request), outcome, "{request:?}");
        // The reference sees it as the document does.
        let (_, reply) = pair.unit.answer(&request);
        assert_eq!(reply[4..8], [255, 2, outcome, place], "{request:?}");
        // On broadcast it is refused in silence.
        pair.check(&frame(UNIT.broadcast(), HOST, opcode, data));
        seen.insert(outcome);
    }
    pair.check_store();
}

#[test]
fn at_every_level() {
    let mut seen = BTreeSet::new();
    for (level, cases) in (0..).zip([LEVEL_0, LEVEL_1, LEVEL_2, LEVEL_3]) {
        let gateway = Gateway::at_level(level);
        let mut pair = Pair::new(gateway.host(), level);
        check(&mut pair, ANY_LEVEL, &mut seen);
        check(&mut pair, cases, &mut seen);
        gateway.stop(SIGTERM);
    }
    assert_eq!(seen, (20..=31).collect());
}

/// A table that level 2 may make but not write through.
#[test]
fn through_a_table() {
    let gateway = Gateway::at_level(2);
    let mut pair = Pair::new(gateway.host(), 2);
    let locations = [122, 0, 0, 122, 0, 4, 124, 0, 2, 98, 0, 33];
    assert_eq!(
        pair.check(&ask(166, &[&[99, 0, 4, 1], &locations[..]].concat())),
        0
    );
    assert_eq!(pair.check(&ask(10, &[0, 1, 4])), 0);
    assert_eq!(pair.check(&ask(11, &[0, 1, 1, 1])), 25);
    assert_eq!(pair.check(&ask(11, &[0, 3, 1, 240, 0])), 26);
    assert_eq!(pair.check(&ask(11, &[0, 4, 2, 5])), 22);
    assert_eq!(pair.check(&ask(11, &[0, 4, 1])), 21);
    assert_eq!(pair.check(&ask(11, &[0, 4, 1, 5, 6])), 21);
    assert_eq!(pair.check(&ask(11, &[0, 4, 1, 5])), 0);
    pair.check_store();
    gateway.stop(SIGTERM);
}

/// The longest request there is, and the longest reply.
#[test]
fn the_longest_frames() {
    let gateway = Gateway::at_level(3);
    let mut pair = Pair::new(gateway.host(), 3);
    let mut data = vec![98, 0, 1, 33];
    data.resize(255, 0);
    assert_eq!(pair.check(&ask(166, &data)), 21);
    assert_eq!(pair.check(&ask(167, &[98, 0, 56, 0])), 0);
    gateway.stop(SIGTERM);
}
