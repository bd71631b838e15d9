//! Many requests at random over several connections, each answer held to the
//! reference's.

use crate::gateway::Gateway;
use crate::libc::SIGTERM;
use crate::pair::{ask, Pair};
use crate::random::{request, Random};
use std::collections::BTreeMap;

const CONNECTIONS: usize = 5;
const REQUESTS: usize = 20_000;

/// One connection at a time, since the store is one: some requests in one
/// stretch, then their answers.
#[test]
fn every_opcode() {
    let gateway = Gateway::at_level(3);
    let mut pair = Pair::new(gateway.host(), 3);
    let mut others: Vec<_> = (1..CONNECTIONS).map(|_| gateway.host()).collect();
    let mut random = Random::new(1);
    let mut outcomes: BTreeMap<u8, usize> = BTreeMap::new();
    let opcodes = [7, 8, 10, 11, 166, 167, 180, 181, 166, 167, 180, 181, 17];
    let mut sent = 0;
    while sent < REQUESTS {
        let other = random.below(others.len());
        std::mem::swap(&mut pair.host, &mut others[other]);
        let stretch: Vec<_> = (0..1 + random.below(12))
            .map(|_| request(&mut random, &opcodes))
            .collect();
        pair.host.send(&stretch.concat()).unwrap();
        for frame in &stretch {
            *outcomes.entry(pair.check_sent(frame)).or_default() += 1;
        }
        // An answer to a frame that has none would come before this one.
        pair.check_silent();
        sent += stretch.len();
    }
    pair.check_store();
    gateway.stop(SIGTERM);
    let seen: Vec<u8> = outcomes.keys().copied().collect();
    let all: Vec<u8> = [0, 7, 8]
        .into_iter()
        .chain(20..=24)
        .chain(26..=31)
        .collect();
    assert_eq!(seen, all, "how often: {outcomes:?}");
    assert!(outcomes[&0] > REQUESTS / 3, "how often: {outcomes:?}");
}

/// Reads only, from all connections at the same time.
#[test]
fn reads_at_once() {
    let gateway = Gateway::at_level(3);
    let mut first = Pair::new(gateway.host(), 3);
    for byte in 0..10 {
        first.check(&ask(166, &[98, byte, 1, 33, byte]));
    }
    std::thread::scope(|scope| {
        for seed in 0..CONNECTIONS as u64 {
            let (gateway, unit) = (&gateway, first.unit.clone());
            scope.spawn(move || {
                let host = gateway.host();
                let mut pair = Pair { host, unit };
                let mut random = Random::new(100 + seed);
                for _ in 0..1000 {
                    pair.check(&request(&mut random, &[7, 10, 167, 180]));
                }
                pair.check_silent();
            });
        }
    });
    gateway.stop(SIGTERM);
}
