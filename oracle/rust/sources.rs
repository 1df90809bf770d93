//! For the build scripts beside this file: the Rust that is ported, compiled where it lies.
//!
//! Each function makes the text of a file in OUT_DIR, which a crate's own source includes.
#![allow(dead_code)] // no build script uses all of it

use std::path::{Path, PathBuf};
use std::{env, fs};

const DEFAULT: &str = "../../../../shared/docs/src"; // beside the repository
const REGISTRY: &str = "/usr/share/cargo/registry"; // as in ../.cargo/config.toml

/// The folder CELESTIAL_SRC, or the default one.
fn folder() -> PathBuf {
    println!("cargo::rerun-if-env-changed=CELESTIAL_SRC");
    let folder = match env::var_os("CELESTIAL_SRC") {
        Some(named) => PathBuf::from(named),
        None => Path::new(&env::var_os("CARGO_MANIFEST_DIR").unwrap()).join(DEFAULT),
    };
    folder.canonicalize().unwrap_or_else(|_| {
        panic!(
            "{} is not there: set CELESTIAL_SRC to the folder with celestial-catalog/ and celestial-solver/",
            folder.display()
        )
    })
}

/// A file of the sources.
pub fn source(path: &str) -> PathBuf {
    watched(folder().join(path))
}

/// A file of libm's own sources.
pub fn libm(path: &str) -> PathBuf {
    watched(Path::new(REGISTRY).join("libm-0.2.1").join(path))
}

fn watched(file: PathBuf) -> PathBuf {
    assert!(file.is_file(), "{} is not there", file.display());
    println!("cargo::rerun-if-changed={}", file.display());
    file
}

/// The file as a module. What it keeps private stays so.
pub fn module(name: &str, file: &Path) -> String {
    format!("#[path = {file:?}]\nmod {name};\n")
}

/// The file's text in a module of ours, whose further items then reach what it keeps private.
pub fn included(file: &Path) -> String {
    format!("include!({file:?});\n")
}

/// A copy of the file in which each text `old`, found as often as said, is `new`.
pub fn edited(file: &Path, edits: &[(&str, usize, &str)]) -> String {
    let mut text = fs::read_to_string(file).unwrap();
    for (old, times, new) in edits {
        let found = text.matches(old).count();
        assert_eq!(found, *times, "{}: how often {old:?} stands there", file.display());
        text = text.replace(old, new);
    }
    text
}

/// Writes a file into OUT_DIR.
pub fn write(name: &str, text: &str) {
    let place = Path::new(&env::var_os("OUT_DIR").unwrap()).join(name);
    fs::write(place, text).unwrap();
}
