//! Ranges, the pairs of type 124, the system write and the number read.

mod common;

use common::Station;
use reference::store::STORE_LENGTH;
use reference::{number_read, system_write, Number};

/// A system write, which changes the value and nothing else, or nothing.
fn write(station: &mut Station, [t, l, p]: [u8; 3], value: &[u8]) -> u8 {
    let mut expected = station.clone();
    let outcome = system_write(&mut station.store, t, l, p, value);
    if outcome == 0 {
        expected.force([t, l, p], value);
    }
    assert!(station.store == expected.store);
    outcome
}

fn short(number: u16) -> [u8; 2] {
    number.to_le_bytes()
}

#[test]
fn system_write_checks_in_order() {
    let mut station = Station::new();
    let mut bytes = vec![0; STORE_LENGTH + 1];
    assert_eq!(system_write(&mut bytes, 1, 99, 99, &[]), 2);
    assert_eq!(write(&mut station, [1, 99, 99], &[]), 22);
    assert_eq!(write(&mut station, [122, 1, 99], &[]), 23);
    assert_eq!(write(&mut station, [122, 0, 24], &[]), 24);
    assert_eq!(write(&mut station, [122, 0, 4], &[]), 21);
    assert_eq!(write(&mut station, [122, 0, 4], &[2, 2]), 21);
    assert_eq!(write(&mut station, [122, 0, 4], &[2]), 27);
    assert_eq!(write(&mut station, [122, 0, 4], &[0]), 0);
}

#[test]
fn texts() {
    let mut station = Station::new();
    for (tlp, length) in [
        ([97, 0, 0], 10),
        ([98, 0, 0], 40),
        ([122, 0, 8], 20),
        ([123, 0, 0], 20),
        ([124, 0, 0], 10),
    ] {
        for byte in 0..=255 {
            for at in [0, length - 1] {
                let mut value = vec![b'x'; length];
                value[at] = byte;
                let expected = if (0x20..=0x7E).contains(&byte) { 0 } else { 27 };
                assert_eq!(write(&mut station, tlp, &value), expected);
            }
        }
    }
}

#[test]
fn small_ranges() {
    let mut station = Station::new();
    let mut admitted = |tlp| {
        (0..=255u8)
            .filter(|&byte| write(&mut station, tlp, &[byte]) == 0)
            .collect::<Vec<_>>()
    };
    assert_eq!(admitted([98, 0, 33]).len(), 256);
    assert_eq!(admitted([98, 0, 61]), [0, 1]);
    (0..8).for_each(|p| assert_eq!(admitted([122, 0, p]), [0, 1]));
    for p in [9, 13, 17, 21] {
        assert_eq!(admitted([122, 0, p]), [0, 1, 2, 3, 4, 5, 255]);
    }
    let rates = [1, 2, 3, 4, 5, 6, 10, 12, 15, 20, 30, 60];
    assert_eq!(admitted([124, 3, 7]), rates);
    assert_eq!(admitted([124, 3, 8]), (0..24).collect::<Vec<_>>());
    assert_eq!(admitted([124, 3, 9]), [0, 1]);
    assert_eq!(admitted([124, 3, 11]), [0, 1]);
}

#[test]
fn larger_numbers() {
    let mut station = Station::new();
    assert_eq!(write(&mut station, [98, 0, 21], &[255; 4]), 0);
    assert_eq!(write(&mut station, [98, 0, 32], &[255; 2]), 0);
    assert_eq!(write(&mut station, [122, 0, 10], &[255; 4]), 0);
    assert_eq!(
        write(&mut station, [124, 0, 10], &224_400u32.to_le_bytes()),
        0
    );
    assert_eq!(
        write(&mut station, [124, 0, 10], &224_401u32.to_le_bytes()),
        27
    );
    assert_eq!(write(&mut station, [124, 5, 2], &short(240)), 0);
    assert_eq!(write(&mut station, [124, 5, 2], &short(239)), 27);
    assert_eq!(write(&mut station, [124, 5, 2], &short(496)), 27);
}

#[test]
fn floats_and_doubles() {
    let mut station = Station::new();
    for (bits, expected) in [
        (0x0000_0001, 0),
        (0x8000_0000, 0),
        (0x7F7F_FFFF, 0),
        (0xFF7F_FFFF, 0),
        (0x7F80_0000, 27),
        (0xFF80_0000, 27),
        (0x7FC0_0000, 27),
        (0x7F80_0001, 27),
        (0xFFFF_FFFFu32, 27),
    ] {
        for tlp in [[98, 4, 20], [99, 4, 0]] {
            assert_eq!(write(&mut station, tlp, &bits.to_le_bytes()), expected);
        }
    }
    for (bits, expected) in [
        (1, 0),
        (1 << 63, 0),
        (0x7FEF_FFFF_FFFF_FFFF, 0),
        (0x7FF0_0000_0000_0000, 27),
        (0xFFF0_0000_0000_0000, 27),
        (0x7FF0_0000_0000_0001, 27),
        (u64::MAX, 27),
    ] {
        assert_eq!(
            write(&mut station, [98, 4, 52], &bits.to_le_bytes()),
            expected
        );
    }
}

#[test]
fn tlps() {
    let mut station = Station::new();
    for (value, any, number) in [
        ([0, 0, 0], 0, 0),
        ([0, 0, 1], 27, 27),
        ([96, 0, 0], 27, 27),
        ([97, 5, 9], 0, 27),
        ([97, 6, 9], 27, 27),
        ([97, 5, 10], 27, 27),
        ([98, 31, 0], 0, 27),
        ([98, 31, 1], 0, 0),
        ([98, 31, 52], 0, 0),
        ([98, 31, 61], 0, 0),
        ([98, 32, 0], 27, 27),
        ([98, 31, 62], 27, 27),
        ([99, 15, 0], 0, 0),
        ([99, 15, 44], 0, 27),
        ([100, 0, 0], 27, 27),
        ([122, 0, 8], 0, 27),
        ([122, 0, 9], 0, 0),
        ([123, 0, 19], 0, 27),
        ([124, 12, 12], 0, 0),
        ([124, 12, 13], 0, 27),
        ([124, 13, 0], 27, 27),
        ([255, 255, 255], 27, 27),
    ] {
        assert_eq!(write(&mut station, [99, 15, 44], &value), any, "{value:?}");
        assert_eq!(
            write(&mut station, [124, 12, 13], &value),
            number,
            "{value:?}"
        );
    }
}

#[test]
fn size_and_configured_points() {
    let mut station = Station::new();
    // Logical 0: the size is 240 only, parameter 12 has no partner.
    assert_eq!(write(&mut station, [124, 0, 1], &short(240)), 0);
    assert_eq!(write(&mut station, [124, 0, 1], &short(239)), 27);
    assert_eq!(write(&mut station, [124, 0, 1], &short(0)), 27);
    assert_eq!(write(&mut station, [124, 0, 12], &short(240)), 0);
    assert_eq!(write(&mut station, [124, 0, 12], &short(241)), 27);
    // Logicals 1 to 12: checked whichever is written.
    for logical in 1..=12 {
        assert_eq!(write(&mut station, [124, logical, 12], &short(1)), 27);
        assert_eq!(write(&mut station, [124, logical, 1], &short(241)), 27);
        assert_eq!(write(&mut station, [124, logical, 1], &short(7)), 0);
        assert_eq!(write(&mut station, [124, logical, 12], &short(8)), 27);
        assert_eq!(write(&mut station, [124, logical, 12], &short(7)), 0);
        assert_eq!(write(&mut station, [124, logical, 1], &short(6)), 27);
        station.write(166, 2, &[124, logical, 1, 1, 7, 0]);
        assert_eq!(
            station.ask(166, 2, &[124, logical, 1, 1, 6, 0]),
            Err((27, 4))
        );
    }
    // A stored partner counts as it stands, in range or not.
    station.force([124, 1, 12], &short(1000));
    assert_eq!(write(&mut station, [124, 1, 1], &short(240)), 27);
    station.force([124, 1, 1], &short(1000));
    assert_eq!(write(&mut station, [124, 1, 12], &short(240)), 0);
    station.force([124, 0, 1], &short(0));
    assert_eq!(write(&mut station, [124, 0, 12], &short(5)), 0);
}

#[test]
fn entries_and_indexes() {
    let mut station = Station::new();
    for (entries, index) in [(3, 5), (4, 6)] {
        let (entries, index) = ([124, 12, entries], [124, 12, index]);
        assert_eq!(write(&mut station, entries, &short(10)), 0);
        assert_eq!(write(&mut station, index, &short(10)), 27);
        assert_eq!(write(&mut station, index, &short(9)), 0);
        assert_eq!(write(&mut station, entries, &short(9)), 27);
        assert_eq!(write(&mut station, entries, &short(0)), 27);
        assert_eq!(write(&mut station, entries, &short(65_535)), 0);
        assert_eq!(write(&mut station, index, &short(65_535)), 27);
        assert_eq!(write(&mut station, index, &short(65_534)), 0);
        assert_eq!(write(&mut station, index, &short(0)), 0);
        assert_eq!(write(&mut station, entries, &short(0)), 0);
        assert_eq!(write(&mut station, index, &short(1)), 27);
        assert_eq!(write(&mut station, index, &short(0)), 0);
        assert_eq!(write(&mut station, entries, &short(1)), 0);
    }
}

/// A fault in a pair is the entry's own, and another logical's pair is not
/// looked at.
#[test]
fn pairs_within_a_request() {
    let mut station = Station::new();
    station.force([124, 2, 5], &short(5));
    let [low, high] = short(5);
    assert_eq!(
        station.ask(181, 2, &[2, 124, 1, 3, 5, 0, 124, 2, 3, low, high]),
        Err((27, 9))
    );
    station.write(
        181,
        2,
        &[3, 124, 1, 3, 5, 0, 124, 2, 3, 6, 0, 124, 2, 3, 7, 0],
    );
    assert_eq!(station.stored([124, 1, 3]), short(5));
    assert_eq!(station.stored([124, 2, 3]), short(7));
}

#[test]
fn numbers() {
    let mut station = Station::new();
    station.force([122, 0, 9], &[0x88]);
    station.force([98, 0, 1], &[1, 0, 0x80, 0x7F]);
    station.force([98, 0, 43], &[1, 0, 0, 0, 0, 0, 0xF0, 0xFF]);
    station.force([98, 0, 22], &[1, 2, 3, 4]);
    station.force([98, 0, 61], &[200]);
    let read = |t, l, p| number_read(&station.store, t, l, p);
    assert_eq!(read(122, 0, 9), Ok(Number::Signed(-120)));
    assert_eq!(read(122, 0, 9).unwrap().bits(), 0x88);
    assert_eq!(read(98, 0, 22), Ok(Number::Unsigned(0x0403_0201)));
    assert_eq!(read(98, 0, 61), Ok(Number::Unsigned(200)));
    assert_eq!(read(124, 0, 3), Ok(Number::Unsigned(840)));
    assert_eq!(read(99, 0, 0), Ok(Number::Single(0.0)));
    assert_eq!(read(98, 0, 1).unwrap().bits(), 0x7F80_0001);
    assert_eq!(read(98, 0, 43).unwrap().bits(), 0xFFF0_0000_0000_0001);
    let kind = |t, l, p| read(t, l, p).unwrap().kind();
    assert_eq!(kind(98, 0, 33), 0);
    assert_eq!(kind(122, 0, 21), 1);
    assert_eq!(kind(98, 0, 1), 2);
    assert_eq!(kind(98, 0, 43), 3);
}

#[test]
fn number_read_refuses_in_order() {
    let station = Station::new();
    assert_eq!(number_read(&station.store[1..], 1, 99, 99), Err(2));
    let read = |t, l, p| number_read(&station.store, t, l, p);
    assert_eq!(read(121, 99, 99), Err(22));
    assert_eq!(read(97, 6, 99), Err(23));
    assert_eq!(read(97, 5, 10), Err(24));
    assert_eq!(read(97, 5, 9), Err(27));
    assert_eq!(read(99, 0, 1), Err(27));
    assert_eq!(read(124, 12, 13), Err(27));
}
