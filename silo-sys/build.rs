//! Links target/staticlib/libsilo.a. Where it is missing or older than its sources, `tools/library` makes it first, which proves what has
//! changed.

use std::io;
use std::path::{Path, PathBuf};
use std::process::Command;
use std::time::SystemTime;

/// When a file, or anything in a folder, was last changed.
fn changed(path: &Path) -> io::Result<SystemTime> {
    let mut last = path.metadata()?.modified()?;
    if path.is_dir() {
        for inside in path.read_dir()? {
            last = last.max(changed(&inside?.path())?);
        }
    }
    Ok(last)
}

/// What the library is made from: crates.txt, and what each crate holds but out/, where rt keeps what it made.
fn sources(root: &Path) -> io::Result<Vec<PathBuf>> {
    let mut found = vec![root.join("crates.txt")];
    for folder in root.join("crates").read_dir()? {
        for inside in folder?.path().read_dir()? {
            let inside = inside?;
            if inside.file_name() != "out" {
                found.push(inside.path());
            }
        }
    }
    found.sort();
    Ok(found)
}

fn is_made(root: &Path, sources: &[PathBuf]) -> io::Result<bool> {
    let made = changed(&root.join("target/staticlib/libsilo.a"))?;
    for source in sources {
        if changed(source)? >= made {
            return Ok(false);
        }
    }
    Ok(true)
}

fn main() {
    let root = concat!(env!("CARGO_MANIFEST_DIR"), "/..");
    let sources = sources(Path::new(root)).expect("the crates' folders");
    for source in &sources {
        println!("cargo:rerun-if-changed={}", source.display());
    }
    if !is_made(Path::new(root), &sources).unwrap_or(false) {
        let made = Command::new(format!("{root}/tools/library")).status();
        assert!(made.is_ok_and(|status| status.success()), "tools/library makes no library");
    }
    // A library that was put there is linked too.
    println!("cargo:rerun-if-changed={root}/target/staticlib/libsilo.a");
    println!("cargo:rustc-link-search=native={root}/target/staticlib");
    // Linked to programs alone: the fuzzer and the benchmark link fuzz/ with other code in the library's place.
    println!("cargo:rustc-link-lib=static:-bundle=silo");
}
