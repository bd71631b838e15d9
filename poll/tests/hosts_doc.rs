//! docs/HOSTS.md says what the reference does.

use reference::points::POINTS;
use std::fs;

fn document() -> String {
    let path = concat!(env!("CARGO_MANIFEST_DIR"), "/../docs/HOSTS.md");
    fs::read_to_string(path).expect("the document")
}

#[test]
fn its_frames_are_the_references() {
    let fresh = poll::examples::refresh(&document()).expect("a block for each example");
    assert!(
        fresh == document(),
        "`cargo run -p poll --bin hosts-doc` writes its frames anew"
    );
}

#[test]
fn it_has_every_error() {
    for number in 20..=31 {
        let row = format!("| {number} | {} |", poll::words::outcome(number));
        assert!(document().contains(&row), "{row}");
    }
}

#[test]
fn it_has_every_point_type() {
    for point in &POINTS {
        let number = format!("| {} ", point.point_type.0);
        let rest = format!(
            " | {} | 0 to {} | {} | {} | {} |",
            point.logicals,
            point.rows.len() - 1,
            point.bytes,
            point.read_level,
            point.write_level
        );
        let found = document()
            .lines()
            .any(|line| line.starts_with(&number) && line.ends_with(&rest));
        assert!(found, "{number}{rest}");
    }
}
