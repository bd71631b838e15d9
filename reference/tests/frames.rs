//! Outcomes 1 to 8, addresses and broadcast.

mod common;

use common::{frame, Station, GROUP, HOST, NOW, UNIT, UNTOUCHED};
use reference::{fill, request, tick};

const OWN: [u8; 2] = [UNIT, GROUP];

/// Everything at fault at once, mended step by step in the rules' order.
#[test]
fn the_first_that_applies() {
    let mut station = Station::new();
    let mut space = [UNTOUCHED; 263];
    let mut clock = [60, 0, 0, 1, 1, 0, 0];
    let good = frame([UNIT, GROUP], HOST, 7, &[]);
    let mut outcome =
        |frame: &[u8], store: &mut [u8], clock: &mut [u8; 7], own: [u8; 2], level, length| {
            let before = (store.to_vec(), *clock);
            let end = request(
                frame,
                store,
                clock,
                own[0],
                own[1],
                level,
                &mut space[..length],
            );
            assert_eq!(end.1 == 0, end.0 != 0);
            assert!(store == before.0 && *clock == before.1);
            if end.0 != 0 {
                assert!(space.iter().all(|&byte| byte == UNTOUCHED));
            }
            end.0
        };
    let store = &mut station.store;
    let short = &mut store.clone()[1..];
    assert_eq!(outcome(&[], short, &mut clock, [0, 0], 4, 0), 1);
    assert_eq!(outcome(&[], short, &mut clock, [0, 0], 4, 262), 1);
    assert_eq!(outcome(&[], short, &mut clock, [0, 0], 4, 263), 2);
    assert_eq!(outcome(&[], store, &mut clock, [0, 5], 3, 263), 3);
    assert_eq!(outcome(&[], store, &mut NOW.clone(), [0, 5], 3, 263), 3);
    assert_eq!(outcome(&[], store, &mut NOW.clone(), [240, 240], 3, 263), 3);
    assert_eq!(outcome(&[], store, &mut NOW.clone(), OWN, 4, 263), 3);
    assert_eq!(outcome(&[], store, &mut clock, OWN, 3, 263), 3);
    let mut now = NOW;
    assert_eq!(outcome(&[], store, &mut now, OWN, 3, 263), 4);
    assert_eq!(outcome(&good[..7], store, &mut now, OWN, 3, 263), 4);
    assert_eq!(outcome(&[0; 264], store, &mut now, OWN, 3, 263), 4);
    let mut longer = good.clone();
    longer.push(0);
    assert_eq!(outcome(&longer, store, &mut now, OWN, 3, 263), 5);
    let mut wrong = frame([99, 9], [0, 0], 7, &[]);
    wrong[7] ^= 1;
    assert_eq!(outcome(&wrong, store, &mut now, OWN, 3, 263), 6);
    wrong[7] ^= 1;
    assert_eq!(outcome(&wrong, store, &mut now, OWN, 3, 263), 7);
    assert_eq!(outcome(&good, store, &mut now, OWN, 3, 263), 0);
}

#[test]
fn not_for_us() {
    let mut station = Station::new();
    for destination in [
        [UNIT, 6],
        [14, GROUP],
        [0, 6],
        [240, GROUP],
        [UNIT, 240],
        [0, 0],
    ] {
        let asked = frame(destination, HOST, 7, &[]);
        assert_eq!(station.send(&asked, 3), (7, 0));
    }
}

#[test]
fn sources_refused() {
    let mut station = Station::new();
    for source in [[0, 0], [0, GROUP], [240, 240], OWN] {
        for destination in [OWN, [0, GROUP], [240, 240]] {
            let asked = frame(destination, source, 7, &[]);
            assert_eq!(station.send(&asked, 3), (8, 0));
        }
    }
    for source in [[240, 1], [1, 240], [UNIT, 6], [14, GROUP]] {
        assert_eq!(station.send(&frame(OWN, source, 7, &[]), 3), (0, 16));
        assert_eq!(station.reply[..2], source);
    }
}

#[test]
fn half_reserved_addresses_are_allowed() {
    let mut station = Station::new();
    for own in [[240, 1], [1, 240], [7, 0]] {
        let asked = frame(own, HOST, 7, &[]);
        assert_eq!(station.send_to(&asked, own, 0), (0, 16));
    }
}

#[test]
fn longest_frame() {
    let mut station = Station::new();
    let mut data = vec![0; 255];
    data[..4].copy_from_slice(&[98, 0, 1, 33]);
    let asked = frame(OWN, HOST, 166, &data);
    assert_eq!(asked.len(), 263);
    assert_eq!(station.send(&asked, 1), (21, 10));
    assert_eq!(station.reply[4..8], [255, 2, 21, 5]);
}

#[test]
fn direct_connect_is_answered_from_our_own_address() {
    let mut station = Station::new();
    let asked = frame([240, 240], HOST, 7, &[]);
    assert_eq!(station.send(&asked, 0), (0, 16));
    assert_eq!(station.reply[..6], [HOST[0], HOST[1], UNIT, GROUP, 7, 8]);
    let asked = frame([240, 240], HOST, 99, &[]);
    assert_eq!(station.send(&asked, 0), (20, 10));
    assert_eq!(
        station.reply[..8],
        [HOST[0], HOST[1], UNIT, GROUP, 255, 2, 20, 0]
    );
}

/// A broadcast is acted on, its outcome told, and never answered.
#[test]
fn broadcast() {
    let mut station = Station::new();
    let mut say = |opcode, level, data: &[u8]| {
        let end = station.send(&frame([0, GROUP], HOST, opcode, data), level);
        assert!(station.reply.iter().all(|&byte| byte == UNTOUCHED));
        assert_eq!(end.1, 0);
        (end.0, station.clone())
    };
    assert_eq!(say(7, 0, &[]).0, 0);
    let (outcome, now) = say(8, 2, &[1, 2, 3, 4, 5, 0xD0, 7]);
    assert_eq!((outcome, now.clock), (0, [1, 2, 3, 4, 5, 0xD0, 7]));
    let (outcome, now) = say(166, 1, &[98, 0, 1, 33, 77]);
    assert_eq!((outcome, now.stored([98, 0, 33])), (0, &[77][..]));
    assert_eq!(say(167, 0, &[98, 0, 57, 0]).0, 28);
    assert_eq!(say(166, 0, &[98, 0, 1, 33, 78]).0, 25);
    assert_eq!(say(8, 2, &[60, 2, 3, 4, 5, 0xD0, 7]).0, 31);
    assert_eq!(say(9, 0, &[]).0, 20);
}

#[test]
fn opcodes_not_served() {
    let mut station = Station::new();
    let served = [7, 8, 10, 11, 166, 167, 180, 181];
    for opcode in (0..=255).filter(|opcode| !served.contains(opcode)) {
        assert_eq!(station.ask(opcode, 3, &[1, 2, 3]), Err((20, 0)));
    }
    for opcode in served {
        assert_ne!(station.ask(opcode, 3, &[]), Err((20, 0)));
    }
}

#[test]
fn nothing_else_is_touched_by_a_clock_or_a_fill() {
    let mut station = Station::new();
    let before = station.store.clone();
    assert_eq!(tick(&mut station.clock), 0);
    assert_eq!(fill(&mut station.store), 0);
    assert!(station.store == before);
}
