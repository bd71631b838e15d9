//! Frames split, joined and with noise between them.

use crate::gateway::{Gateway, SILENCE};
use crate::libc::SIGTERM;
use crate::pair::{ask, Pair};
use crate::random::Random;
use poll::examples::UNIT;
use poll::request::frame;
use reference::frame::Address;
use std::io::Write;
use std::thread::sleep;
use std::time::{Duration, Instant};

fn requests() -> Vec<Vec<u8>> {
    vec![
        ask(167, &[98, 0, 56, 0]),
        ask(166, &[98, 0, 2, 32, 0x10, 0x27, 7]),
        ask(7, &[]),
        ask(180, &[2, 98, 0, 33, 124, 0, 7]),
        ask(17, &[]),
    ]
}

#[test]
fn split_at_every_place() {
    let gateway = Gateway::at_level(3);
    let mut pair = Pair::new(gateway.host(), 3);
    for request in requests() {
        for place in 1..request.len() {
            pair.host.send(&request[..place]).unwrap();
            sleep(Duration::from_millis(2));
            pair.host.send(&request[place..]).unwrap();
            pair.check_sent(&request);
        }
    }
    gateway.stop(SIGTERM);
}

/// A slow writer, and a fast one that is not held up by it.
#[test]
fn byte_by_byte() {
    let gateway = Gateway::at_level(3);
    let mut slow = Pair::new(gateway.host(), 3);
    let mut fast = Pair::new(gateway.host(), 3);
    let request = ask(180, &[2, 98, 0, 33, 124, 0, 7]);
    // A busy machine may make a pause that is silence to the gateway.
    let mut longest = SILENCE;
    while longest >= SILENCE / 2 {
        sleep(SILENCE);
        longest = Duration::ZERO;
        for byte in &request {
            let before = Instant::now();
            slow.host.send(&[*byte]).unwrap();
            fast.check(&request);
            sleep(Duration::from_millis(60));
            longest = longest.max(before.elapsed());
        }
    }
    slow.check_sent(&request);
    gateway.stop(SIGTERM);
}

#[test]
fn joined() {
    let gateway = Gateway::at_level(3);
    let mut pair = Pair::new(gateway.host(), 3);
    for times in [1, 2, 50, 300] {
        let requests: Vec<_> = (0..times).flat_map(|_| requests()).collect();
        pair.host.send(&requests.concat()).unwrap();
        for request in &requests {
            pair.check_sent(request);
        }
    }
    gateway.stop(SIGTERM);
}

/// Noise that is no frame, now and then with the beginning of one; each good
/// frame behind it is answered.
#[test]
fn noise_between() {
    let gateway = Gateway::at_level(3);
    let mut pair = Pair::new(gateway.host(), 3);
    let mut random = Random::new(5);
    // Most wait for silence, so there are not too many.
    for _ in 0..4 {
        for request in requests() {
            let length = random.below(40);
            let mut noise: Vec<u8> = (0..length).map(|_| random.byte()).collect();
            if random.below(4) == 0 {
                noise.extend(&request[..request.len() / 2]);
            }
            pair.host.send(&noise).unwrap();
            pair.check(&request);
        }
    }
    gateway.stop(SIGTERM);
}

/// Zeros leave the CRC of the frame behind them right, and with some numbers
/// the whole looks like a frame of another length.
#[test]
fn zeros_between() {
    let gateway = Gateway::at_level(3);
    let mut pair = Pair::new(gateway.host(), 3);
    let neighbour = Address { unit: 3, group: 2 };
    let requests = [
        ask(8, &[6, 5, 4, 3, 2, 0xEA, 7]),
        ask(7, &[]),
        frame(UNIT, neighbour, 7, &[]),
        frame(UNIT.broadcast(), neighbour, 8, &[6, 5, 4, 3, 2, 0xEA, 7]),
        ask(167, &[98, 0, 3, 31]),
    ];
    for count in 0..10 {
        for request in &requests {
            pair.host.send(&vec![0; count]).unwrap();
            pair.check(request);
        }
    }
    gateway.stop(SIGTERM);
}

/// A host that closes its half at once still gets every answer, also to a
/// frame behind noise that promised more.
#[test]
fn the_end_of_the_stream() {
    use std::io::Read;
    let gateway = Gateway::at_level(3);
    let mut pair = Pair::new(gateway.host(), 3);
    let request = ask(167, &[98, 0, 56, 0]);
    let (_, reply) = pair.unit.answer(&request);
    let mut stream = gateway.connect();
    stream.write_all(&request.repeat(3)).unwrap();
    stream.write_all(&[1, 2, 3, 0, 167, 200]).unwrap();
    stream.write_all(&request).unwrap();
    stream.shutdown(std::net::Shutdown::Write).unwrap();
    let mut replies = Vec::new();
    stream.read_to_end(&mut replies).unwrap();
    assert_eq!(replies, reply.repeat(4));
    gateway.stop(SIGTERM);
}
