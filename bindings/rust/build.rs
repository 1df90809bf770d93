//! Links the archive: the file MOORSPINDLE_ARCHIVE, or the one that `bindings/archive` builds.

use std::path::PathBuf;
use std::process::Command;
use std::{env, fs};

fn main() {
    println!("cargo::rerun-if-env-changed=MOORSPINDLE_ARCHIVE");
    let archive = match env::var_os("MOORSPINDLE_ARCHIVE") {
        Some(named) => PathBuf::from(named),
        None => built(),
    };
    let Ok(archive) = fs::canonicalize(&archive) else {
        panic!("{} is not there", archive.display());
    };
    println!("cargo::rerun-if-changed={}", archive.display());
    println!("cargo::rustc-link-search=native={}", archive.parent().unwrap().display());
    println!("cargo::rustc-link-lib=static=moorspindle");
}

fn built() -> PathBuf {
    println!("cargo::rerun-if-changed=../../crates");
    let output = Command::new("../archive").output().expect("bindings/archive runs");
    assert!(
        output.status.success(),
        "bindings/archive: {}",
        String::from_utf8_lossy(&output.stderr)
    );
    PathBuf::from(String::from_utf8(output.stdout).expect("a path").trim())
}
