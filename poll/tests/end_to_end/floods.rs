//! Garbage and floods: nothing is stored, no memory is taken, and the next
//! request is answered.

use crate::gateway::{Gateway, LONG, SILENCE};
use crate::libc::{pseudo_terminal, SIGTERM};
use crate::pair::{ask, Pair};
use crate::random::Random;
use crate::serial;
use crate::unit::Unit;
use std::io::{ErrorKind, Read, Write};
use std::net::{Shutdown, TcpStream};
use std::time::{Duration, Instant};

/// What resident memory may grow by, in kilobytes: some pages that were never
/// touched before, no buffer for each frame or client.
const GROWTH: u64 = 256;

const STRETCH: usize = 4096;

/// Bytes that hold no frame for the unit, since its address is not among them.
fn garbage(random: &mut Random) -> Vec<u8> {
    (0..STRETCH)
        .map(|_| match random.byte() {
            1 => 2,
            byte => byte,
        })
        .collect()
}

/// Sends until all is sent or the gateway has closed.
fn pour(mut client: TcpStream, bytes: &[u8]) {
    let closed = |kind| matches!(kind, ErrorKind::BrokenPipe | ErrorKind::ConnectionReset);
    if let Err(error) = client.write_all(bytes) {
        assert!(closed(error.kind()), "{error}");
    }
}

/// Puts a gateway through something and holds its store and its memory to what
/// they were. It is put through it once before, so that what it needs once is
/// there.
fn put_through(through: impl Fn(&Gateway, &mut Random)) {
    let gateway = Gateway::at_level(3);
    let mut pair = Pair::new(gateway.host(), 3);
    for logical in 0..32 {
        pair.check(&ask(166, &[98, logical, 1, 33, 100 + logical]));
    }
    let mut random = Random::new(9);
    through(&gateway, &mut random);
    let mut pair = Pair {
        host: gateway.host(),
        unit: pair.unit,
    };
    pair.check_store();
    let before = gateway.resident();
    through(&gateway, &mut random);
    pair.host = gateway.host();
    pair.check_store();
    let after = gateway.resident();
    println!("resident memory: {before} kB before, {after} kB after");
    assert!(after <= before + GROWTH, "from {before} kB to {after} kB");
    gateway.stop(SIGTERM);
}

#[test]
fn garbage_over_tcp() {
    put_through(|gateway, random| {
        for _ in 0..40 {
            pour(gateway.connect(), &garbage(random));
        }
        let mut client = gateway.connect();
        for _ in 0..40 {
            client.write_all(&garbage(random)).unwrap();
        }
    });
}

/// Frames for us with a wrong CRC, and headers that promise data that never
/// come.
#[test]
fn near_frames_over_tcp() {
    put_through(|gateway, random| {
        let mut bytes = Vec::new();
        for _ in 0..500 {
            let mut frame = ask(166, &[98, 0, 1, 33, random.byte()]);
            *frame.last_mut().unwrap() ^= 1 << random.below(8);
            bytes.extend(frame);
            bytes.extend([1, 2, 3, 0, 166, random.byte()]);
        }
        pour(gateway.connect(), &bytes);
    });
}

#[test]
fn garbage_over_a_pseudo_terminal() {
    let (gateway, host) = serial::start(&[]);
    let mut pair = Pair::new(host, 3);
    let mut random = Random::new(10);
    for _ in 0..10 {
        pair.host.send(&garbage(&mut random)).unwrap();
        std::thread::sleep(SILENCE / 4);
    }
    std::thread::sleep(SILENCE);
    pair.check_store();
    gateway.stop(SIGTERM);
}

/// Connections that come and go, some with a half frame.
#[test]
fn connections() {
    put_through(|gateway, random| {
        for _ in 0..300 {
            let mut client = gateway.connect();
            if random.below(2) == 0 {
                let _ = client.write_all(&ask(7, &[])[..random.below(8)]);
            }
        }
    });
}

/// More connections at the same time than it holds, all of them kept.
#[test]
fn connections_that_stay() {
    put_through(|gateway, _| {
        let mut clients: Vec<_> = (0..100).map(|_| gateway.connect()).collect();
        let mut last = clients.pop().unwrap();
        last.write_all(&ask(7, &[])).unwrap();
        last.read_exact(&mut [0; 16]).unwrap();
    });
}

/// Requests far faster than their answers are read, from a host that closes its
/// half when it has asked all.
#[test]
fn requests() {
    const COUNT: usize = 20_000;
    put_through(|gateway, _| {
        let client = gateway.connect();
        let mut answers = client.try_clone().unwrap();
        let read = ask(167, &[123, 0, 12, 0]);
        let (_, expected) = Unit::fresh(3).answer(&read);
        std::thread::scope(|scope| {
            scope.spawn(|| {
                (&client).write_all(&read.repeat(COUNT)).unwrap();
                client.shutdown(Shutdown::Write).unwrap();
            });
            std::thread::sleep(SILENCE);
            let mut answer = vec![0; expected.len()];
            for _ in 0..COUNT {
                answers.read_exact(&mut answer).unwrap();
                assert!(answer == expected);
            }
            assert_eq!(answers.read(&mut answer).unwrap(), 0);
        });
    });
}

/// Lines that are gone, stuck or in the middle of a frame cost nothing while
/// nothing comes.
#[test]
fn idle() {
    let (end, path) = pseudo_terminal();
    let gateway = Gateway::start(&["--serial", &path]);
    let mut half = gateway.connect();
    half.write_all(&ask(7, &[])[..5]).unwrap();
    let closed = gateway.connect();
    closed.shutdown(Shutdown::Write).unwrap();
    let mut stuck = gateway.connect();
    stuck.set_nonblocking(true).unwrap();
    let read = ask(167, &[98, 0, 56, 0]);
    while stuck.write_all(&read).is_ok() {}
    drop(end);
    // Once it has answered all that came it rests.
    let until = Instant::now() + LONG;
    loop {
        let before = gateway.processor_time();
        std::thread::sleep(Duration::from_secs(1));
        let taken = gateway.processor_time() - before;
        if taken < 10 {
            break;
        }
        assert!(Instant::now() < until, "{taken} hundredths of a second");
    }
    gateway.stop(SIGTERM);
}
