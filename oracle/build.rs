//! Links Moorspindle's archive: the file MOORSPINDLE_ARCHIVE, as bindings/archive prints it.

use std::path::PathBuf;
use std::{env, fs};

fn main() {
    println!("cargo::rerun-if-env-changed=MOORSPINDLE_ARCHIVE");
    let default = || "../crates/moorspindle/out/libmoorspindle.a".into();
    let named = env::var_os("MOORSPINDLE_ARCHIVE").unwrap_or_else(default);
    let archive = PathBuf::from(named);
    let Ok(archive) = fs::canonicalize(&archive) else {
        panic!("{} is not there: run bindings/archive", archive.display());
    };
    println!("cargo::rerun-if-changed={}", archive.display());
    println!("cargo::rustc-link-search=native={}", archive.parent().unwrap().display());
    println!("cargo::rustc-env=LINKED_ARCHIVE={}", archive.display());
}
