//! Several clients at once, and clients that go away.

use crate::gateway::{Gateway, LONG};
use crate::libc::SIGTERM;
use crate::pair::{ask, Pair};
use poll::Failure;
use std::io::{Read, Write};

/// As many connections as the gateway holds.
const MOST: usize = 16;

/// Clients that ask in turn, each its own answers.
#[test]
fn as_many_as_it_holds() {
    let gateway = Gateway::at_level(3);
    let mut pairs: Vec<_> = (0..MOST).map(|_| Pair::new(gateway.host(), 3)).collect();
    for round in 0..5 {
        for (logical, pair) in (0..).zip(&mut pairs) {
            pair.check(&ask(166, &[98, logical, 1, 33, round]));
            pair.check(&ask(167, &[98, logical, 3, 31]));
        }
    }
    gateway.stop(SIGTERM);
}

/// One more than it holds: the one that was silent longest makes place.
#[test]
fn one_more() {
    let gateway = Gateway::at_level(3);
    let mut pairs: Vec<_> = (0..MOST).map(|_| Pair::new(gateway.host(), 3)).collect();
    std::thread::sleep(std::time::Duration::from_millis(5));
    for (number, pair) in pairs.iter_mut().enumerate() {
        if number != 3 {
            pair.check_silent();
        }
    }
    pairs.push(Pair::new(gateway.host(), 3));
    let mut silent = pairs.remove(3);
    assert!(matches!(silent.host.receive(), Err(Failure::Line(_))));
    for pair in &mut pairs {
        pair.check_silent();
    }
    gateway.stop(SIGTERM);
}

/// Fewer than it would hold, since it may open no more: place is made all the
/// same.
#[test]
fn few_files() {
    let gateway = Gateway::with_few_files(19);
    let hosts: Vec<_> = (0..3 * MOST).map(|_| gateway.host()).collect();
    let mut last = Pair::new(hosts.into_iter().last().unwrap(), 3);
    last.check_silent();
    gateway.stop(SIGTERM);
}

/// Clients that close before they have read: what they asked for is done, and
/// nobody else notices.
#[test]
fn gone_before_the_answer() {
    let gateway = Gateway::at_level(3);
    let mut pair = Pair::new(gateway.host(), 3);
    let read = ask(167, &[98, 0, 56, 0]);
    for _ in 0..50 {
        let mut client = gateway.connect();
        client.write_all(&read.repeat(20)).unwrap();
        // One answer is there, so the others find a connection that is reset.
        client.read_exact(&mut [0; 8]).unwrap();
        drop(client);
        // None is there yet when this one closes, so that the second finds
        // nobody who takes it.
        let mut client = gateway.connect();
        client.write_all(&read.repeat(80)).unwrap();
        drop(client);
        let mut half = gateway.connect();
        half.write_all(&read[..9]).unwrap();
        drop(half);
        pair.check(&read);
    }
    gateway.stop(SIGTERM);
}

/// A client that asks and never reads is dropped, and the gateway serves
/// others all the while.
#[test]
fn one_that_never_reads() {
    let gateway = Gateway::at_level(3);
    let mut pair = Pair::new(gateway.host(), 3);
    let mut client = gateway.connect();
    client.set_write_timeout(Some(LONG)).unwrap();
    let read = ask(167, &[98, 0, 56, 0]).repeat(50);
    let until = std::time::Instant::now() + 2 * LONG;
    // A send that is not taken within the time-out would be a hang, not a drop.
    let dropped = loop {
        match client.write_all(&read) {
            Ok(()) => assert!(std::time::Instant::now() < until, "it is not dropped"),
            Err(error) => break error.kind(),
        }
        pair.check_silent();
    };
    assert_ne!(dropped, std::io::ErrorKind::WouldBlock);
    pair.check_silent();
    gateway.stop(SIGTERM);
}
