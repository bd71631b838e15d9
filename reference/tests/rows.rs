//! The rows, the store they lay out, and the fill.

use reference::points::{Access, Found, Kind, Logical, Parameter, PointType, Tlp, POINTS};
use reference::store::STORE_LENGTH;
use reference::{fill, number_read, system_write, Number};

fn fresh() -> Vec<u8> {
    let mut store = vec![0xEE; STORE_LENGTH];
    assert_eq!(fill(&mut store), 0);
    store
}

fn every_parameter() -> Vec<Found> {
    let mut all = Vec::new();
    for point in &POINTS {
        for logical in 0..point.logicals {
            for parameter in 0..point.rows.len() as u8 {
                all.push(
                    Found::of(Tlp {
                        point_type: point.point_type,
                        logical: Logical(logical),
                        parameter: Parameter(parameter),
                    })
                    .unwrap(),
                );
            }
        }
    }
    all
}

#[test]
fn sums() {
    let numbers = POINTS.map(|point| point.point_type.0);
    assert_eq!(numbers, [97, 98, 99, 122, 123, 124]);
    assert_eq!(POINTS.map(|point| point.logicals), [6, 32, 16, 1, 1, 13]);
    assert_eq!(
        POINTS.map(|point| point.rows.len()),
        [10, 62, 45, 24, 20, 14]
    );
    assert_eq!(
        POINTS.map(|point| point.bytes),
        [100, 271, 136, 124, 400, 35]
    );
    assert_eq!(POINTS.map(|point| point.read_level), [0, 0, 0, 1, 2, 0]);
    assert_eq!(POINTS.map(|point| point.write_level), [1, 1, 2, 3, 3, 2]);
    let all = every_parameter();
    assert_eq!(all.len(), 2_990);
    let mut next = 0;
    for found in all {
        assert_eq!(found.offset, next);
        next += found.row.length();
    }
    assert_eq!((next, STORE_LENGTH), (12_427, 12_427));
}

#[test]
fn lengths_fit_kinds() {
    for row in POINTS.iter().flat_map(|point| point.rows) {
        let fits = match row.kind {
            Kind::Text => matches!(row.length, 10 | 20 | 40),
            Kind::Unsigned => matches!(row.length, 1 | 2 | 4),
            Kind::Signed => row.length == 1,
            Kind::Single => row.length == 4,
            Kind::Double => row.length == 8,
            Kind::Tlp => row.length == 3,
        };
        assert!(fits, "{}", row.name);
    }
}

#[test]
fn read_only_rows() {
    let of = |number| {
        let point = POINTS.iter().find(|p| p.point_type == PointType(number));
        let rows = point.unwrap().rows.iter().enumerate();
        rows.filter(|(_, row)| row.access != Access::ReadWrite)
            .map(|(parameter, _)| parameter)
            .collect::<Vec<_>>()
    };
    assert!([97, 98, 99, 123]
        .iter()
        .all(|&number| of(number).is_empty()));
    let mut expected = vec![4, 5, 6];
    expected.extend(8..24);
    assert_eq!(of(122), expected);
    assert_eq!(of(124), [1, 2, 5, 6, 10, 12]);
}

#[test]
fn names() {
    let name = |tlp| Found::of(Tlp::from_bytes(tlp)).unwrap().row.name;
    assert_eq!(name([97, 0, 9]), "Register Tag 10");
    assert_eq!(name([98, 0, 42]), "Byte 10");
    assert_eq!(name([98, 0, 53]), "Long 3");
    assert_eq!(name([98, 0, 61]), "Logging Enable");
    assert_eq!(name([99, 0, 44]), "Data 44");
    assert_eq!(name([122, 0, 23]), "Resource 4 Current Cycle Time");
    assert_eq!(name([123, 0, 0]), "Group #1");
    assert_eq!(name([124, 0, 12]), "Number of Configured Points");
}

#[test]
fn fill_needs_the_stores_length() {
    for length in [0, 1, STORE_LENGTH - 1, STORE_LENGTH + 1] {
        let mut bytes = vec![7; length];
        assert_eq!(fill(&mut bytes), 2);
        assert!(bytes.iter().all(|&byte| byte == 7));
    }
}

#[test]
fn every_default_is_in_range() {
    let mut store = fresh();
    let filled = store.clone();
    for found in every_parameter() {
        let value = filled[found.offset..][..found.row.length()].to_vec();
        let outcome = system_write(
            &mut store,
            found.point.point_type.0,
            found.logical.0,
            found.parameter.0,
            &value,
        );
        assert_eq!(outcome, 0, "{found:?}");
    }
    assert!(store == filled);
}

#[test]
fn default_texts() {
    let store = fresh();
    let text = |tlp| {
        let found = Found::of(Tlp::from_bytes(tlp)).unwrap();
        String::from_utf8(store[found.offset..][..found.row.length()].to_vec()).unwrap()
    };
    assert_eq!(text([97, 0, 0]), "Register1 ");
    assert_eq!(text([97, 5, 9]), "Register10");
    assert_eq!(text([98, 0, 0]), format!("{:40}", "Soft Pt 1"));
    assert_eq!(text([98, 8, 0]), format!("{:40}", "Soft Pt 9"));
    assert_eq!(text([98, 9, 0]), format!("{:40}", "Soft Pt 10"));
    assert_eq!(text([98, 31, 0]), format!("{:40}", "Soft Pt 32"));
    assert_eq!(text([122, 0, 8]), " ".repeat(20));
    assert_eq!(text([122, 0, 20]), " ".repeat(20));
    assert_eq!(text([123, 0, 19]), " ".repeat(20));
    assert_eq!(text([124, 0, 0]), "General 00");
    assert_eq!(text([124, 1, 0]), "Segment 01");
    assert_eq!(text([124, 9, 0]), "Segment 09");
    assert_eq!(text([124, 10, 0]), "Segment 10");
    assert_eq!(text([124, 12, 0]), "Segment 12");
}

/// Of the numbers only these have a default other than zero.
#[test]
fn default_numbers() {
    let store = fresh();
    for found in every_parameter() {
        let (Logical(logical), Parameter(parameter)) = (found.logical, found.parameter);
        let number = found.point.point_type.0;
        let expected = match (number, logical, parameter) {
            (98, _, 61) | (122, _, 0..=6) | (124, _, 9) => 1,
            (124, 0, 1) | (124, _, 2) => 240,
            (124, _, 3) => 840,
            (124, _, 4) => 35,
            (124, _, 7) => 60,
            (124, _, 10) => 224_400,
            _ => 0,
        };
        match number_read(&store, number, logical, parameter) {
            Ok(Number::Unsigned(value)) => assert_eq!(value, expected, "{found:?}"),
            Ok(value) => assert_eq!(value.bits(), 0),
            Err(outcome) => assert_eq!(outcome, 27),
        }
    }
}
