//! The data of opcodes 10 and 11, and the tables they go by.

use reference::points::{Found, Logical, Parameter, Tlp as Named, POINTS};
use reference::store::Store;

use super::frames::{self, MOST_DATA, ODD_COUNTS};
use super::tlps;
use super::values;
use crate::random::Random;
use crate::step::{Call, Tlp};

const TABLES: u8 = 16;
const LOCATIONS: u8 = 44;
/// The tables that are set up and asked for most, so that requests meet tables
/// that were set up.
const USED: [u8; 4] = [0, 1, 2, TABLES - 1];

/// Opcode 10: table, start, count.
pub fn read(random: &mut Random, store: &Store) -> Vec<u8> {
    named(random, store).to_vec()
}

/// Opcode 11: the same, then a value for each location.
pub fn write(random: &mut Random, store: &Store) -> Vec<u8> {
    let [table, start, count] = named(random, store);
    let mut data = vec![table, start, count];
    let fault = random
        .percent(30)
        .then(|| random.below(count.max(1).into()));
    for number in 0..usize::from(count) {
        let Some(found) = at(store, table, usize::from(start) + number) else {
            break;
        };
        data.extend(values::of(random, found, store, Some(number) != fault));
    }
    data.truncate(MOST_DATA);
    data
}

fn named(random: &mut Random, store: &Store) -> [u8; 3] {
    let start = 1 + random.below(LOCATIONS.into()) as u8;
    let start = random.of(&[start, start, 1, 1, LOCATIONS]);
    let table = set_up_at(random, store, start);
    let rest = LOCATIONS + 1 - start;
    let some = 1 + random.below(rest.into()) as u8;
    let few = some.min(5);
    let full = fitting(store, table, start).clamp(1, rest);
    let over = (full + 1).min(rest);
    let count = random.of(&[1, few, few, some, rest, full, over]);
    match random.below(30) {
        0 => [random.of(&[TABLES, TABLES + 1, 255]), start, count],
        1 => [table, random.of(&[0, LOCATIONS + 1, 255]), count],
        2 => [table, start, 0],
        3 => [table, start, rest + 1],
        4 => [table, start, random.of(&ODD_COUNTS)],
        5 => [random.of(&[3, 7, TABLES - 2]), start, count],
        _ => [table, start, count],
    }
}

/// A table with something in a location, if one was met.
fn set_up_at(random: &mut Random, store: &Store, location: u8) -> u8 {
    let tables = [(); 4].map(|()| random.of(&USED));
    let set_up = |table: &u8| at(store, *table, location.into()).is_some();
    tables.into_iter().find(set_up).unwrap_or(tables[0])
}

/// How many locations a reply to opcode 10 has room for.
fn fitting(store: &Store, table: u8, start: u8) -> u8 {
    let mut length = 3 + 4;
    let locations = usize::from(start)..=LOCATIONS.into();
    let fits = locations.map_while(|location| at(store, table, location));
    let fits = fits.take_while(|found| {
        length += found.row.length();
        length <= MOST_DATA
    });
    fits.count() as u8
}

/// What a location of a table names, if it exists.
fn at(store: &Store, table: u8, location: usize) -> Option<Found> {
    let location = place(table, u8::try_from(location).ok()?)?;
    let named = location.value(store).try_into().ok()?;
    Found::of(Named::from_bytes(named)).ok()
}

fn place(table: u8, location: u8) -> Option<Found> {
    let found = POINTS[2].parameter(Logical(table), Parameter(location));
    found.ok().filter(|_| location > 0)
}

/// Sets up a table: by a request of opcode 166 that names what exists, or by
/// putting in one location what no request can put there.
pub fn set_up(random: &mut Random, own: [u8; 2]) -> Call {
    let table = random.of(&USED);
    if random.percent(30) {
        let any = 1 + random.below(LOCATIONS.into()) as u8;
        let location = random.of(&[1, 2, 3, any, any, LOCATIONS]);
        let location = place(table, location).expect("the table has it");
        return Call::Overwrite(location.offset, tlps::missing(random).to_vec());
    }
    let sort = random.below(9);
    let mut data = vec![99, table, LOCATIONS, 1];
    for location in 1..=LOCATIONS {
        data.extend(contents(random, sort, table, location));
    }
    if random.percent(40) {
        // One location that a level or its access keeps from being used.
        let at = 4 + 3 * random.below(LOCATIONS.into());
        let kept = tlps::such(random, |f| f.point.write_level > 2 || f.is_read_only());
        data[at..at + 3].copy_from_slice(&kept.map_or([0; 3], tlps::tlp));
    }
    Call::Request(frames::good(own, 166, 3, &data))
}

/// What a location names in a table of a sort.
fn contents(random: &mut Random, sort: usize, table: u8, location: u8) -> Tlp {
    let any = random.below(usize::from(LOCATIONS) + 1) as u8;
    let found = match sort {
        // Its own locations, or those of other tables.
        0 => return [99, table, any],
        1 => return [99, random.of(&USED), any],
        // Long texts, then single bytes, so that a reply can be just full.
        2 if location <= 6 => return [98, location, 0],
        2 => return [98, location % 32, 33],
        3 => Some(tlps::existing(random)),
        4 => tlps::such(random, |found| found.row.length() >= 10),
        5 => tlps::such(random, |found| found.point.point_type.0 == 124),
        _ => tlps::such(random, |found| {
            found.row.length() <= 4 && tlps::writable(found, 2)
        }),
    };
    found.map_or([0; 3], tlps::tlp)
}
