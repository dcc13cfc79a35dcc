//! Finds liblefkanu.a: in the folder that LEFKANU_LIB names, or built by `rt lib` in this repository's crates/lefkanu.

use std::env;
use std::fs;
use std::io;
use std::path::{Path, PathBuf};
use std::process::{self, Command, Stdio};

const ARCHIVE: &str = "liblefkanu.a";

const HINT: &str = "set LEFKANU_LIB to the folder that holds a liblefkanu.a built elsewhere";

fn fail(message: &str) -> ! {
    eprintln!("lefkanu: {message}");
    process::exit(1)
}

fn main() {
    println!("cargo:rerun-if-env-changed=LEFKANU_LIB");
    if env::var("CARGO_CFG_TARGET_ARCH").as_deref() != Ok("x86_64") {
        // The library's compile_error says so.
        return;
    }
    let folder = match env::var_os("LEFKANU_LIB") {
        Some(folder) => named(PathBuf::from(folder)),
        None => built(),
    };
    println!("cargo:rustc-link-search=native={}", folder.display());
}

/// The folder that LEFKANU_LIB names.
fn named(folder: PathBuf) -> PathBuf {
    if !folder.is_absolute() {
        fail("LEFKANU_LIB must be an absolute path");
    }
    let archive = folder.join(ARCHIVE);
    if !archive.is_file() {
        fail(&format!("there is no {}", archive.display()));
    }
    println!("cargo:rerun-if-changed={}", archive.display());
    folder
}

/// A folder of cargo's with the archive that `rt lib` writes to the repository's crates/lefkanu/out. It is a copy, since
/// `rt ci` sets out/ aside while it runs, and so that the archive's own age does not make cargo build it each time.
fn built() -> PathBuf {
    let here = folder("CARGO_MANIFEST_DIR");
    let root = match fs::canonicalize(here.join("../..")) {
        Ok(root) if root.join("crates.txt").is_file() => root,
        _ => fail(&format!(
            "this crate is not in its repository, two folders below crates.txt: put it back, or {HINT}"
        )),
    };
    for source in sources(&root) {
        println!("cargo:rerun-if-changed={}", source.display());
    }
    let lefkanu = root.join("crates/lefkanu");
    build(&lefkanu);
    let archive = lefkanu.join("out").join(ARCHIVE);
    let out = folder("OUT_DIR");
    match fs::copy(&archive, out.join(ARCHIVE)) {
        Ok(_) => out,
        Err(error) => fail(&format!("{} can't be copied: {error}", archive.display())),
    }
}

/// crates.txt, and the folders that `rt` reads of each crate. What it makes is in out/ beside these.
fn sources(root: &Path) -> Vec<PathBuf> {
    let crates = root.join("crates");
    let entries = match fs::read_dir(&crates) {
        Ok(entries) => entries,
        Err(error) => fail(&format!("{} can't be read: {error}", crates.display())),
    };
    let mut sources = vec![root.join("crates.txt")];
    for entry in entries.flatten() {
        let parts = ["src", "specs", "proofs"].map(|part| entry.path().join(part));
        sources.extend(parts.into_iter().filter(|part| part.is_dir()));
    }
    sources
}

/// Runs `rt lib` in the folder of the crate.
fn build(folder: &Path) {
    let ended = Command::new("rt")
        .arg("lib")
        .current_dir(folder)
        .stdin(Stdio::null())
        .status();
    match ended {
        Ok(status) if status.success() => {}
        Ok(status) => fail(&format!(
            "rt lib in {} ended with {status}",
            folder.display()
        )),
        Err(error) if error.kind() == io::ErrorKind::NotFound => fail(&format!(
            "the Rattle kit is not here: its command rt is not found. Put it on the path, or {HINT}"
        )),
        Err(error) => fail(&format!("rt can't be run: {error}")),
    }
}

/// A folder that cargo names.
fn folder(variable: &str) -> PathBuf {
    match env::var_os(variable) {
        Some(folder) => PathBuf::from(folder),
        None => fail(&format!("cargo has not set {variable}")),
    }
}
