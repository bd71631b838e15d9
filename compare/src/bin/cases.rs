//! Writes the files of the program `cases`.

use std::path::Path;
use std::{fs, io};

use compare::cases::{expected, files, FOLDER};

fn main() -> io::Result<()> {
    let folder = Path::new(env!("CARGO_MANIFEST_DIR"))
        .join("..")
        .join(FOLDER);
    fs::create_dir_all(folder.join("data"))?;
    let files = files();
    for file in &files {
        fs::write(folder.join("data").join(file.name), file.records())?;
    }
    fs::write(folder.join("stdout"), expected(&files))
}
