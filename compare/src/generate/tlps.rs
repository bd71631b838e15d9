//! Parameters that exist and TLPs that just do not.

use reference::points::{Found, Kind, Logical, Parameter, POINTS};

use crate::random::Random;
use crate::step::Tlp;

/// How often a parameter of the wanted sort is looked for. A level may leave
/// none.
const TRIES: usize = 200;

/// A parameter that exists.
pub fn existing(random: &mut Random) -> Found {
    if random.percent(15) {
        return paired(random);
    }
    let point = &POINTS[random.of(&[0, 1, 1, 1, 2, 2, 3, 3, 4, 5, 5])];
    let any = random.below(point.logicals.into()) as u8;
    let logical = random.of(&[0, 0, 1 % point.logicals, point.logicals - 1, any]);
    let parameter = random.below(point.rows.len()) as u8;
    let found = point.parameter(Logical(logical), Parameter(parameter));
    found.expect("both are in the point type")
}

/// A parameter of type 124's pairs, in few logicals so that both of a pair are
/// written.
fn paired(random: &mut Random) -> Found {
    let logical = random.of(&[0, 1, 1, 12]);
    let parameter = random.of(&[1, 3, 4, 5, 6, 12]);
    let found = POINTS[5].parameter(Logical(logical), Parameter(parameter));
    found.expect("both are in type 124")
}

/// A parameter of a sort, if one was met.
pub fn such(random: &mut Random, wanted: impl Fn(&Found) -> bool) -> Option<Found> {
    (0..TRIES).map(|_| existing(random)).find(wanted)
}

/// A parameter of a sort, or any if none was met.
pub fn preferably(random: &mut Random, wanted: impl Fn(&Found) -> bool) -> Found {
    such(random, wanted).unwrap_or_else(|| existing(random))
}

/// A TLP that exists but for one of its numbers.
pub fn missing(random: &mut Random) -> Tlp {
    let found = existing(random);
    let [mut t, mut l, mut p] = tlp(found);
    let rows = found.point.rows.len() as u8;
    match random.below(3) {
        0 => t = random.of(&[0, 96, 100, 121, 125, 255]),
        1 => l = random.of(&[found.point.logicals, found.point.logicals + 1, 255]),
        _ => p = random.of(&[rows, rows + 1, 255]),
    }
    [t, l, p]
}

/// A TLP that mostly exists.
pub fn any(random: &mut Random) -> Tlp {
    match random.below(10) {
        0 => missing(random),
        1 => [random.byte(), random.byte(), random.byte()],
        _ => tlp(existing(random)),
    }
}

/// The TLP of a parameter.
pub fn tlp(found: Found) -> Tlp {
    [found.point.point_type.0, found.logical.0, found.parameter.0]
}

/// Whether it is neither text nor TLP.
pub fn is_number(found: &Found) -> bool {
    !matches!(found.row.kind, Kind::Text | Kind::Tlp)
}

/// Whether a level may read it.
pub fn readable(found: &Found, level: u8) -> bool {
    found.point.read_level <= level
}

/// Whether a level may write it.
pub fn writable(found: &Found, level: u8) -> bool {
    found.point.write_level <= level && !found.is_read_only()
}
