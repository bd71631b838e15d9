//! Finds the archive: the one that `tools/build-archive` writes, or the one
//! that TYURKANIM_ARCHIVE names. Links it if it is for this machine; if not,
//! makes a program of it that an emulator runs.

use std::env;
use std::error::Error;
use std::fs;
use std::path::{Path, PathBuf};
use std::process::Command;

const NAMED_BY: &str = "TYURKANIM_ARCHIVE";
/// The program for another machine.
const BRIDGE: &str = "bridge.c";
const HEADER: &str = "../include/tyurkanim.h";

fn main() {
    println!("cargo::rustc-check-cfg=cfg(linked)");
    println!("cargo::rerun-if-env-changed={NAMED_BY}");
    println!("cargo::rerun-if-changed=build.rs");
    println!("cargo::rerun-if-changed={BRIDGE}");
    println!("cargo::rerun-if-changed={HEADER}");
    if let Err(error) = reach(&archive()) {
        println!("cargo::error={error}");
    }
}

/// The archive's path. One that is relative is meant from the repository's root,
/// whatever folder cargo runs this in.
fn archive() -> PathBuf {
    let root = Path::new(env!("CARGO_MANIFEST_DIR")).join("..");
    let named = env::var_os(NAMED_BY).map(PathBuf::from);
    root.join(named.unwrap_or_else(|| "target/staticlib/libgateway.a".into()))
}

fn reach(archive: &Path) -> Result<(), Box<dyn Error>> {
    println!("cargo::rerun-if-changed={}", archive.display());
    let bytes = fs::read(archive).map_err(|error| {
        let path = archive.display();
        format!("{path}: {error}; `bash tools/build-archive` writes the archive")
    })?;
    let machine = machine(&bytes).ok_or("the archive holds no object for a known machine")?;
    if machine == env::var("CARGO_CFG_TARGET_ARCH")? {
        link(archive)
    } else {
        bridge(archive, machine)
    }
}

/// The machine that the archive's first object is for.
fn machine(archive: &[u8]) -> Option<&'static str> {
    let object = archive.windows(4).position(|bytes| bytes == b"\x7FELF")?;
    match archive.get(object + 18..object + 20)? {
        [62, 0] => Some("x86_64"),
        [183, 0] => Some("aarch64"),
        _ => None,
    }
}

fn link(archive: &Path) -> Result<(), Box<dyn Error>> {
    let folder = archive.parent().ok_or("the archive is in no folder")?;
    let name = archive.file_name().ok_or("the archive has no name")?;
    println!("cargo::rustc-cfg=linked");
    println!("cargo::rustc-link-search=native={}", folder.display());
    println!(
        "cargo::rustc-link-lib=static:+verbatim={}",
        name.to_string_lossy()
    );
    Ok(())
}

fn bridge(archive: &Path, machine: &str) -> Result<(), Box<dyn Error>> {
    let compiler = format!("{machine}-linux-gnu-gcc");
    let emulator = format!("qemu-{machine}");
    let program = Path::new(&env::var("OUT_DIR")?).join("bridge");
    let compiled = Command::new(&compiler)
        .args(["-O2", "-Wall", "-Wextra", "-Werror", "-static", BRIDGE])
        .arg(archive)
        .arg("-o")
        .arg(&program)
        .status()
        .map_err(|error| format!("{compiler}: {error}; Debian's gcc-x86-64-linux-gnu and libc6-dev-amd64-cross have it"))?;
    if !compiled.success() {
        return Err(format!("{compiler} did not compile {BRIDGE}").into());
    }
    if Command::new(&emulator).arg("--version").output().is_err() {
        return Err(format!("no {emulator}; Debian's qemu-user has it").into());
    }
    println!("cargo::rustc-env=TYURKANIM_BRIDGE={}", program.display());
    println!("cargo::rustc-env=TYURKANIM_EMULATOR={emulator}");
    Ok(())
}
