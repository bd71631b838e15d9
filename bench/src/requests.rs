//! The requests that are measured: of every opcode a short and a full one, then
//! what is refused and what is passed over.

use compare::generate::frames::{good, sealed};
use compare::record::OWN;
use compare::step::Request;

/// Who asks.
const HOST: [u8; 2] = [3, 4];
/// Enough for everything.
const LEVEL: u8 = 3;

/// A request with a name.
pub struct Named {
    pub name: &'static str,
    pub request: Request,
}

/// The requests, in an order in which each is acted on that is meant to be: the
/// table of opcodes 10 and 11 is set up first.
pub fn all() -> Vec<Named> {
    let of = |name, opcode, data: &[u8]| Named {
        name,
        request: good(OWN, opcode, LEVEL, data),
    };
    vec![
        of("166, 44 locations of a table", 166, &table()),
        of("7", 7, &[]),
        of("8", 8, &[0, 0, 12, 29, 2, 0xE8, 7]),
        of("10, 1 location", 10, &[0, 1, 1]),
        of("10, 44 locations", 10, &[0, 1, 44]),
        of("11, 1 location", 11, &[&[0, 1, 1], &[0; 4][..]].concat()),
        of(
            "11, 44 locations",
            11,
            &[&[0, 1, 44], &[0; 4 * 44][..]].concat(),
        ),
        of("166, 1 byte", 166, &[98, 0, 1, 33, 7]),
        of("166, 56 parameters", 166, &block()),
        of("166, 2 paired numbers", 166, &[124, 1, 2, 3, 72, 3, 35, 0]),
        of("167, 1 byte", 167, &[98, 0, 1, 33]),
        of("167, 56 parameters", 167, &[98, 0, 56, 0]),
        of("180, 1 byte", 180, &[1, 98, 0, 33]),
        of("180, 63 bytes", 180, &list(63, &[])),
        of("181, 1 byte", 181, &[1, 98, 0, 33, 7]),
        of("181, 63 bytes", 181, &list(63, &[7])),
        of("181, 63 bytes, the last refused", 181, &refused()),
        of("opcode not served", 6, &[]),
        broadcast("166, 56 parameters, broadcast", 166, &block()),
        passed_over("for another station", 7),
        bad_crc("263 bytes, CRC differs"),
    ]
}

/// 44 locations that name floats.
fn table() -> Vec<u8> {
    let locations = (0..44).flat_map(|i| [98, i / 20, 1 + i % 20]);
    [99, 0, 44, 1].into_iter().chain(locations).collect()
}

/// The first 56 parameters of a soft point, a text and numbers: as many as a
/// frame holds.
fn block() -> Vec<u8> {
    let mut data = vec![98, 0, 56, 0];
    data.resize(data.len() + 40, b' ');
    data.resize(254, 0);
    data
}

/// Parameters of one byte, each followed by a value.
fn list(count: u8, value: &[u8]) -> Vec<u8> {
    let mut data = vec![count];
    for i in 0..count {
        data.extend([98, i / 10, 33 + i % 10]);
        data.extend(value);
    }
    data
}

/// A list whose last parameter does not exist.
fn refused() -> Vec<u8> {
    let mut data = list(63, &[7]);
    let parameter = data.len() - 2;
    data[parameter] = 62;
    data
}

fn broadcast(name: &'static str, opcode: u8, data: &[u8]) -> Named {
    let mut request = good(OWN, opcode, LEVEL, data);
    request.frame = sealed([0, OWN[1]], HOST, opcode, data);
    Named { name, request }
}

fn passed_over(name: &'static str, opcode: u8) -> Named {
    let mut request = good(OWN, opcode, LEVEL, &[]);
    request.frame = sealed(HOST, [5, 6], opcode, &[]);
    Named { name, request }
}

fn bad_crc(name: &'static str) -> Named {
    let mut request = good(OWN, 181, LEVEL, &[0; 255]);
    let last = request.frame.len() - 1;
    request.frame[last] ^= 1;
    Named { name, request }
}
