//! The files of the program `cases` are those that the reference makes.

use std::fs;
use std::path::Path;

use compare::cases::{expected, files, FOLDER};

fn stored(name: &str) -> Vec<u8> {
    let folder = Path::new(env!("CARGO_MANIFEST_DIR"))
        .join("..")
        .join(FOLDER);
    fs::read(folder.join(name)).unwrap_or_else(|error| panic!("{name}: {error}"))
}

#[test]
fn the_records() {
    for file in files() {
        let name = format!("data/{}", file.name);
        assert!(stored(&name) == file.records(), "{name}");
    }
}

#[test]
fn what_the_program_writes() {
    assert!(stored("stdout") == expected(&files()).as_bytes());
}
