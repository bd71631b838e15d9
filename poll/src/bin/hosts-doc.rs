//! Writes the example frames of docs/HOSTS.md anew, from the reference.

use std::process::ExitCode;
use std::{fs, path::Path};

fn main() -> ExitCode {
    let path = Path::new(env!("CARGO_MANIFEST_DIR")).join("../docs/HOSTS.md");
    let written = fs::read_to_string(&path)
        .map_err(|error| error.to_string())
        .and_then(|document| poll::examples::refresh(&document))
        .and_then(|fresh| fs::write(&path, fresh).map_err(|error| error.to_string()));
    match written {
        Ok(()) => ExitCode::SUCCESS,
        Err(why) => {
            eprintln!("hosts-doc: {}: {why}", path.display());
            ExitCode::FAILURE
        }
    }
}
