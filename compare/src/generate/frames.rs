//! Requests: the frame around the data, the addresses, the level, the reply
//! space.

use reference::frame::{Address, Frame, LONGEST, OVERHEAD};

use super::{block, clocks, list, table, tlps};
use crate::random::Random;
use crate::step::Request;
use crate::unit::{Unit, REPLY_SPACE};

/// The most data bytes of a frame.
pub const MOST_DATA: usize = 255;
/// Counts at which something changes.
pub const ODD_COUNTS: [u8; 9] = [0, 1, 44, 56, 57, 62, 63, 64, 255];

/// An address that a station may have.
pub fn own_address(random: &mut Random) -> [u8; 2] {
    let any = [1 + random.below(255) as u8, random.byte()];
    let reserved_by_half = random.of(&[[240, 0], [240, 239], [1, 240], [241, 240]]);
    match any {
        [240, 240] => [1, 2],
        _ => random.of(&[any, any, any, reserved_by_half]),
    }
}

/// A request that gets far.
pub fn request(random: &mut Random, own: [u8; 2], unit: &Unit) -> Request {
    let level = random.of(&[0, 1, 1, 2, 2, 2, 3, 3, 3, 3, 3, 3]);
    let opcode = opcode(random);
    let data = data(random, opcode, level, unit);
    let data = odd_length(random, data);
    let frame = sealed(destination(random, own), source(random, own), opcode, &data);
    let mut request = Request {
        frame: odd_frame(random, frame),
        own,
        level,
        reply_length: random.of(&[LONGEST, LONGEST + 1, REPLY_SPACE]),
    };
    match random.below(150) {
        0 => request.level = random.of(&[4, 5, 128, 255]),
        1 => request.own = random.of(&[[0, own[1]], [0, 0], [240, 240]]),
        2 | 3 => request.reply_length = random.below(LONGEST),
        4 => request.reply_length = LONGEST - 1,
        _ => {}
    }
    request
}

/// A request from a host that nothing is wrong with but its data.
pub fn good(own: [u8; 2], opcode: u8, level: u8, data: &[u8]) -> Request {
    let host = [own[0] ^ 255, 7];
    let host = if host[0] == 0 { [1, 7] } else { host };
    Request {
        frame: sealed(own, host, opcode, data),
        own,
        level,
        reply_length: LONGEST,
    }
}

/// A frame with its length and CRC.
pub fn sealed(destination: [u8; 2], source: [u8; 2], opcode: u8, data: &[u8]) -> Vec<u8> {
    let address = |[unit, group]: [u8; 2]| Address { unit, group };
    let frame = Frame {
        destination: address(destination),
        source: address(source),
        opcode,
        data,
    };
    let mut space = [0; LONGEST];
    let length = frame.write(&mut space);
    space[..length.into()].to_vec()
}

fn opcode(random: &mut Random) -> u8 {
    let near = random.of(&[0, 6, 9, 12, 165, 168, 179, 182, 255]);
    let any = random.byte();
    let other = random.of(&[near, any]);
    random.of(&[
        7, 8, 10, 10, 11, 11, 11, 166, 166, 166, 167, 167, 180, 180, 181, 181, 181, other,
    ])
}

fn data(random: &mut Random, opcode: u8, level: u8, unit: &Unit) -> Vec<u8> {
    match opcode {
        7 => Vec::new(),
        8 => clocks::any(random).to_vec(),
        10 => table::read(random, unit.store()),
        11 => table::write(random, unit.store()),
        166 => block::write(random, unit.store(), level),
        167 => block::read(random, level),
        180 => list::read(random, level),
        181 => list::write(random, unit.store(), level),
        _ => {
            let length = random.below(10);
            random.bytes(length)
        }
    }
}

/// Now and then data that is short, has spare bytes or another byte in it.
fn odd_length(random: &mut Random, mut data: Vec<u8>) -> Vec<u8> {
    let length = data.len();
    match random.below(100) {
        0..6 => data.truncate(random.below(length + 1)),
        6..8 => data.truncate(length.saturating_sub(1)),
        8..13 => {
            let more = random.of(&[1, 1, 2, 3, MOST_DATA]);
            let (least, most) = ((length + 1).min(MOST_DATA), MOST_DATA);
            data.resize((length + more).clamp(least, most), 0);
        }
        13..16 if length > 0 => {
            let (at, any) = (random.below(length), random.byte());
            data[at] = random.of(&[0, 255, any]);
        }
        16..18 => {
            let [t, l, p] = tlps::any(random);
            data.truncate(MOST_DATA - 3);
            data.extend([t, l, p]);
        }
        _ => {}
    }
    data
}

/// Now and then a frame that is none.
fn odd_frame(random: &mut Random, mut frame: Vec<u8>) -> Vec<u8> {
    let length = frame.len();
    match random.below(200) {
        0 | 1 => frame[length - 1 - random.below(2)] ^= 1 << random.below(8),
        2 => frame.swap(length - 1, length - 2),
        3 => frame.truncate(OVERHEAD.max(length - 1)),
        4 => frame.truncate(random.below(OVERHEAD)),
        5 => frame.truncate(random.below(5)),
        6 => frame.resize(LONGEST + 1 + random.below(30), 0),
        7 => frame.push(random.byte()),
        8 => frame[5] = random.byte(),
        9 => {
            let at = random.below(length);
            frame[at] ^= 1 << random.below(8);
        }
        _ => {}
    }
    frame
}

fn destination(random: &mut Random, own: [u8; 2]) -> [u8; 2] {
    let [unit, group] = own;
    match random.below(20) {
        0 => random.of(&[
            [unit, group ^ 1],
            [unit ^ 1, group],
            [0, group ^ 1],
            [240, group],
            [unit, 240],
            [group, unit],
            [0, 0],
            [240, 0],
            [0, 240],
        ]),
        1..4 => [0, group],
        4 | 5 => [240, 240],
        _ => own,
    }
}

fn source(random: &mut Random, own: [u8; 2]) -> [u8; 2] {
    let [unit, group] = own;
    let any = [random.byte(), random.byte()];
    match random.below(30) {
        0 => random.of(&[[0, group], [0, 0], [240, 240], own]),
        1 => random.of(&[
            [240, group],
            [unit, 240],
            [unit, group ^ 1],
            [unit ^ 1, group],
        ]),
        2..5 => any,
        _ => [unit % 255 + 1, group],
    }
}
