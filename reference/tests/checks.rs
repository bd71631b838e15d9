//! The order of checks and the places, opcode by opcode.

mod common;

use common::Station;

#[test]
fn opcode_167() {
    let mut station = Station::new();
    let data = [1, 200, 0, 200, 9];
    for n in 0..4 {
        assert_eq!(station.ask(167, 0, &data[..n]), Err((21, n as u8)));
    }
    assert_eq!(station.ask(167, 0, &[1, 200, 0, 200, 9]), Err((22, 0)));
    assert_eq!(station.ask(167, 0, &[123, 1, 0, 200, 9]), Err((23, 1)));
    assert_eq!(station.ask(167, 0, &[123, 0, 0, 200, 9]), Err((30, 2)));
    assert_eq!(station.ask(167, 0, &[123, 0, 1, 20, 9]), Err((24, 3)));
    assert_eq!(station.ask(167, 0, &[123, 0, 21, 0, 9]), Err((24, 3)));
    assert_eq!(station.ask(167, 0, &[123, 0, 255, 255, 9]), Err((24, 3)));
    assert_eq!(station.ask(167, 0, &[123, 0, 1, 255, 9]), Err((24, 3)));
    assert_eq!(station.ask(167, 1, &[123, 0, 20, 0, 9]), Err((25, 0)));
    assert_eq!(station.ask(167, 2, &[123, 0, 20, 0, 9]), Err((21, 4)));
    assert_eq!(station.ask(167, 2, &[123, 0, 20, 0]), Err((28, 0)));
    assert_eq!(station.ask(167, 2, &[123, 0, 1, 19]).unwrap().len(), 24);
}

#[test]
fn read_levels() {
    let mut station = Station::new();
    for (point_type, needed) in [(97, 0), (98, 0), (99, 0), (122, 1), (123, 2), (124, 0)] {
        for level in 0..=3 {
            let refused = level < needed;
            let end = station.ask(167, level, &[point_type, 0, 1, 0]);
            assert_eq!(end == Err((25, 0)), refused);
            let end = station.ask(180, level, &[1, point_type, 0, 0]);
            assert_eq!(end == Err((25, 1)), refused);
            station.force([99, 0, 1], &[point_type, 0, 0]);
            let end = station.ask(10, level, &[0, 1, 1]);
            assert_eq!(end == Err((25, 1)), refused);
        }
    }
}

#[test]
fn write_levels() {
    let mut station = Station::new();
    let rows = [
        ([97, 0, 0], 1),
        ([98, 0, 0], 1),
        ([99, 0, 0], 2),
        ([122, 0, 0], 3),
        ([123, 0, 0], 3),
        ([124, 0, 0], 2),
    ];
    for (tlp, needed) in rows {
        let [point_type, logical, parameter] = tlp;
        let value = station.stored(tlp).to_vec();
        for level in 0..=3 {
            let wanted = |place| {
                if level < needed {
                    Err((25, place))
                } else {
                    Ok(vec![])
                }
            };
            let data = [&[point_type, logical, 1, parameter], &value[..]].concat();
            assert_eq!(station.ask(166, level, &data), wanted(0));
            let data = [&[1, point_type, logical, parameter], &value[..]].concat();
            assert_eq!(station.ask(181, level, &data), wanted(1));
            station.force([99, 15, 44], &tlp);
            let data = [&[15, 44, 1], &value[..]].concat();
            assert_eq!(station.ask(11, level, &data), wanted(1));
        }
    }
}

#[test]
fn opcode_166() {
    let mut station = Station::new();
    let mut ask = |level, data: &[u8]| station.ask(166, level, data);
    assert_eq!(ask(3, &[98, 0, 1]), Err((21, 3)));
    assert_eq!(ask(0, &[96, 0, 1, 0]), Err((22, 0)));
    assert_eq!(ask(0, &[98, 32, 0, 0]), Err((23, 1)));
    assert_eq!(ask(0, &[98, 0, 0, 62]), Err((30, 2)));
    assert_eq!(ask(0, &[98, 0, 2, 61]), Err((24, 3)));
    assert_eq!(ask(0, &[98, 0, 1, 61]), Err((25, 0)));
    assert_eq!(ask(1, &[98, 0, 1, 61]), Err((21, 4)));
    assert_eq!(ask(1, &[98, 0, 1, 61, 2]), Err((27, 4)));
    assert_eq!(ask(1, &[98, 0, 1, 61, 1, 7, 7]), Err((21, 5)));
    // Read-only comes before short, short before range, value by value.
    assert_eq!(ask(3, &[122, 0, 3, 3, 1]), Err((26, 5)));
    assert_eq!(ask(3, &[122, 0, 3, 3, 2]), Err((27, 4)));
    assert_eq!(ask(3, &[122, 0, 3, 3]), Err((21, 4)));
    assert_eq!(ask(3, &[122, 0, 1, 4]), Err((26, 4)));
    assert_eq!(ask(2, &[124, 0, 2, 3, 1, 0, 5]), Err((21, 7)));
    assert_eq!(ask(1, &[98, 0, 2, 32, 1, 2, 3]), Ok(vec![]));
    assert_eq!(station.stored([98, 0, 32]), [1, 2]);
    assert_eq!(station.stored([98, 0, 33]), [3]);
}

#[test]
fn opcode_166_a_whole_table() {
    let mut station = Station::new();
    let mut data = vec![99, 3, 45, 0, 0, 0, 128, 63];
    for parameter in 1..=44 {
        data.extend([98, 31, parameter]);
    }
    station.write(166, 2, &data);
    assert_eq!(station.stored([99, 3, 0]), 1f32.to_le_bytes());
    assert_eq!(station.stored([99, 3, 44]), [98, 31, 44]);
    assert_eq!(station.stored([99, 2, 44]), [0, 0, 0]);
    assert_eq!(station.stored([99, 4, 0]), [0, 0, 0, 0]);
}

#[test]
fn opcode_180() {
    let mut station = Station::new();
    let mut ask = |level, data: &[u8]| station.ask(180, level, data);
    assert_eq!(ask(0, &[]), Err((21, 0)));
    assert_eq!(ask(0, &[0]), Err((30, 0)));
    assert_eq!(ask(0, &[0, 1]), Err((30, 0)));
    assert_eq!(ask(0, &[1]), Err((21, 1)));
    assert_eq!(ask(0, &[1, 1, 200]), Err((21, 3)));
    assert_eq!(ask(0, &[1, 1, 200, 200]), Err((22, 1)));
    assert_eq!(ask(0, &[1, 122, 1, 24]), Err((23, 2)));
    assert_eq!(ask(0, &[1, 122, 0, 24]), Err((24, 3)));
    assert_eq!(ask(0, &[1, 122, 0, 23]), Err((25, 1)));
    assert_eq!(ask(1, &[1, 122, 0, 23, 0]), Err((21, 4)));
    assert_eq!(ask(1, &[2, 122, 0, 23, 98, 0]), Err((21, 6)));
    assert_eq!(ask(1, &[2, 122, 0, 23, 98, 32, 62]), Err((23, 5)));
    assert_eq!(ask(1, &[2, 122, 0, 23, 123, 0, 0]), Err((25, 4)));
    assert_eq!(
        ask(1, &[2, 122, 0, 7, 124, 12, 4]),
        Ok(vec![2, 122, 0, 7, 0, 124, 12, 4, 35, 0])
    );
}

/// Spare bytes come before a reply too long, and an entry's fault before both.
#[test]
fn reply_too_long_comes_last() {
    let mut station = Station::new();
    let mut data = vec![7];
    (0..7).for_each(|_| data.extend([98, 0, 0]));
    assert_eq!(station.ask(180, 0, &data), Err((28, 0)));
    data.push(1);
    assert_eq!(station.ask(180, 0, &data), Err((21, 22)));
    data[0] = 8;
    data.extend([0, 0]);
    assert_eq!(station.ask(180, 0, &data), Err((22, 22)));

    (1..=7).for_each(|location| station.force([99, 0, location], &[98, 0, 0]));
    assert_eq!(station.ask(10, 0, &[0, 1, 7]), Err((28, 0)));
    assert_eq!(station.ask(10, 0, &[0, 1, 7, 0]), Err((21, 3)));
    assert_eq!(station.ask(10, 0, &[0, 1, 8, 0]), Err((22, 1)));
    assert_eq!(station.ask(10, 0, &[0, 1, 6]).unwrap().len(), 247);
}

#[test]
fn a_reply_of_255_data_bytes_fits() {
    let mut station = Station::new();
    (1..=6).for_each(|location| station.force([99, 0, location], &[98, 0, 0]));
    station.force([99, 0, 7], &[98, 0, 43]);
    assert_eq!(station.ask(10, 0, &[0, 1, 7]).unwrap().len(), 255);
    station.force([99, 0, 8], &[98, 0, 33]);
    assert_eq!(station.ask(10, 0, &[0, 1, 8]), Err((28, 0)));
}

#[test]
fn opcode_181() {
    let mut station = Station::new();
    let mut ask = |level, data: &[u8]| station.ask(181, level, data);
    assert_eq!(ask(0, &[]), Err((21, 0)));
    assert_eq!(ask(0, &[0]), Err((30, 0)));
    assert_eq!(ask(0, &[1, 98, 0]), Err((21, 3)));
    assert_eq!(ask(0, &[1, 9, 99, 99]), Err((22, 1)));
    assert_eq!(ask(0, &[1, 97, 6, 99]), Err((23, 2)));
    assert_eq!(ask(0, &[1, 97, 5, 10]), Err((24, 3)));
    assert_eq!(ask(0, &[1, 97, 5, 9]), Err((25, 1)));
    assert_eq!(ask(1, &[1, 97, 5, 9]), Err((21, 4)));
    assert_eq!(ask(3, &[1, 122, 0, 8]), Err((26, 1)));
    assert_eq!(ask(2, &[1, 122, 0, 8]), Err((25, 1)));
    assert_eq!(ask(1, &[1, 98, 0, 61, 2, 9]), Err((27, 4)));
    assert_eq!(ask(1, &[1, 98, 0, 61, 0, 9]), Err((21, 5)));
    assert_eq!(ask(1, &[2, 98, 0, 61, 0, 98, 0, 61]), Err((21, 8)));
    assert_eq!(ask(2, &[2, 98, 0, 61, 0, 124, 0, 1, 240, 0]), Err((26, 5)));
    assert_eq!(ask(2, &[2, 98, 0, 61, 0, 98, 0, 61, 3]), Err((27, 8)));
}

/// Every entry of a list is stored, also in the longest list there is.
#[test]
fn opcode_181_stores_the_whole_list() {
    let mut station = Station::new();
    let mut data = vec![63];
    for entry in 0..63 {
        data.extend([98, entry % 32, 33 + entry / 32, entry + 1]);
    }
    station.write(181, 1, &data);
    for entry in 0..63 {
        assert_eq!(
            station.stored([98, entry % 32, 33 + entry / 32]),
            [entry + 1]
        );
    }
    data[0] = 64;
    assert_eq!(station.ask(181, 1, &data), Err((21, 253)));
}

#[test]
fn opcodes_10_and_11_name_locations() {
    let mut station = Station::new();
    for opcode in [10, 11] {
        let mut ask = |data: &[u8]| station.ask(opcode, 3, data);
        let data = [16, 0, 0];
        for n in 0..3 {
            assert_eq!(ask(&data[..n]), Err((21, n as u8)));
        }
        assert_eq!(ask(&[16, 0, 0, 9]), Err((29, 0)));
        assert_eq!(ask(&[15, 0, 0, 9]), Err((29, 1)));
        assert_eq!(ask(&[15, 45, 0, 9]), Err((29, 1)));
        assert_eq!(ask(&[15, 255, 255, 9]), Err((29, 1)));
        assert_eq!(ask(&[15, 44, 0, 9]), Err((30, 2)));
        assert_eq!(ask(&[15, 44, 2, 9]), Err((29, 2)));
        assert_eq!(ask(&[15, 1, 45, 9]), Err((29, 2)));
        assert_eq!(ask(&[15, 1, 255, 9]), Err((29, 2)));
        assert_eq!(ask(&[15, 1, 44, 9]), Err((22, 1)));
    }
    for (stored, outcome) in [([1, 2, 3], 22), ([98, 32, 62], 23), ([98, 31, 62], 24)] {
        station.force([99, 15, 44], &stored);
        assert_eq!(station.ask(10, 3, &[15, 44, 1]), Err((outcome, 1)));
        assert_eq!(station.ask(11, 3, &[15, 44, 1]), Err((outcome, 1)));
    }
}

#[test]
fn opcode_10_replies_with_the_revision() {
    let mut station = Station::new();
    station.write(166, 2, &[99, 2, 3, 0, 0, 0, 32, 65, 98, 1, 61, 124, 0, 3]);
    assert_eq!(
        station.ask(10, 0, &[2, 1, 2]),
        Ok(vec![2, 1, 2, 0, 0, 32, 65, 1, 72, 3])
    );
    assert_eq!(
        station.ask(10, 0, &[2, 2, 1]),
        Ok(vec![2, 2, 1, 0, 0, 32, 65, 72, 3])
    );
}

/// The table is readable at level 0, what it names need not be.
#[test]
fn opcode_10_minds_the_level_of_each_type() {
    let mut station = Station::new();
    station.write(166, 2, &[99, 0, 2, 1, 98, 0, 33, 123, 0, 0]);
    assert!(station.ask(10, 0, &[0, 1, 1]).is_ok());
    assert_eq!(station.ask(10, 1, &[0, 1, 2]), Err((25, 1)));
    assert!(station.ask(10, 2, &[0, 1, 2]).is_ok());
}

#[test]
fn opcode_11() {
    let mut station = Station::new();
    station.write(166, 2, &[99, 0, 3, 1, 98, 0, 33, 122, 0, 4, 98, 0, 61]);
    assert_eq!(station.ask(11, 0, &[0, 1, 1, 5]), Err((25, 1)));
    assert_eq!(station.ask(11, 1, &[0, 1, 1]), Err((21, 3)));
    assert_eq!(station.ask(11, 1, &[0, 1, 1, 5, 6]), Err((21, 4)));
    assert_eq!(station.ask(11, 2, &[0, 2, 1]), Err((25, 1)));
    assert_eq!(station.ask(11, 3, &[0, 2, 1]), Err((26, 1)));
    assert_eq!(station.ask(11, 3, &[0, 1, 2, 5]), Err((26, 1)));
    assert_eq!(station.ask(11, 3, &[0, 3, 1, 2, 2]), Err((27, 3)));
    station.write(11, 1, &[0, 1, 1, 5]);
    assert_eq!(station.stored([98, 0, 33]), [5]);
}

/// Locations are those stored when the request arrives.
#[test]
fn opcode_11_writes_its_own_table() {
    let mut station = Station::new();
    station.write(166, 2, &[99, 0, 3, 1, 99, 0, 2, 98, 0, 33, 99, 0, 1]);
    station.write(11, 2, &[0, 1, 3, 98, 1, 34, 7, 98, 2, 35]);
    assert_eq!(station.stored([99, 0, 2]), [98, 1, 34]);
    assert_eq!(station.stored([98, 0, 33]), [7]);
    assert_eq!(station.stored([98, 1, 34]), [0]);
    assert_eq!(station.stored([99, 0, 1]), [98, 2, 35]);
    station.write(11, 1, &[0, 2, 1, 8]);
    assert_eq!(station.stored([98, 1, 34]), [8]);
}
