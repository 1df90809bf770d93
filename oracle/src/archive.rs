//! The size of the archive that is linked here, as `size` of the binutils says it.

use std::fs;
use std::process::Command;

use crate::Outcome;
use crate::bench::whole;

/// As build.rs found it.
const ARCHIVE: &str = env!("LINKED_ARCHIVE");

/// What lies in the sections of the objects, in bytes.
#[derive(Debug, PartialEq)]
struct Sections {
    code: u64,
    constants: u64,
    /// Memory that can be written, which Moorspindle has none of.
    state: u64,
}

/// A table of the sizes.
pub fn table() -> Outcome<Vec<String>> {
    let file = fs::metadata(ARCHIVE).map_err(|error| error.to_string())?.len();
    let Sections { code, constants, state } = sections(&listed()?)?;
    let line = |(name, bytes): (&str, u64)| format!("| {name} | {} |", whole(bytes as f64));
    let sizes = [
        ("the file", file),
        ("its code, `.text`", code),
        ("its constants, `.rodata`", constants),
        ("its state, `.data` and `.bss`", state),
    ];
    let head = ["| the archive | bytes |".to_string(), "|---|--:|".to_string()];
    Ok(head.into_iter().chain(sizes.map(line)).collect())
}

/// The sections of all objects, a line each: name, size, address.
fn listed() -> Outcome<String> {
    let size = Command::new("size").args(["-A", ARCHIVE]).output();
    let size = size.map_err(|error| format!("size: {error}"))?;
    if !size.status.success() {
        return Err(String::from_utf8_lossy(&size.stderr).into_owned());
    }
    String::from_utf8(size.stdout).map_err(|error| error.to_string())
}

fn sections(listed: &str) -> Outcome<Sections> {
    let mut sizes = Sections { code: 0, constants: 0, state: 0 };
    for line in listed.lines() {
        let mut words = line.split_whitespace();
        let (Some(name), Some(bytes)) = (words.next(), words.next()) else { continue };
        let of = |kind: &str| name == kind || name.starts_with(&format!("{kind}."));
        let sum = match () {
            () if of(".text") => &mut sizes.code,
            () if of(".rodata") => &mut sizes.constants,
            () if of(".data") || of(".bss") => &mut sizes.state,
            () => continue,
        };
        *sum += crate::parse::<u64>(bytes)?;
    }
    Ok(sizes)
}

#[cfg(test)]
mod tests {
    use super::*;

    #[test]
    fn sections_are_summed_by_kind() {
        let listed = "a.o   (ex lib.a):\nsection size addr\n.text 5 0\n.text.moorspindle_root 20 0\n\
                      .rodata.cst8 8 0\n.rodata 2 0\n.bss 0 0\n.data.x 3 0\n.textual 99 0\n\
                      .comment 79 0\nTotal 216\n";
        let sizes = Sections { code: 25, constants: 10, state: 3 };
        assert_eq!(sections(listed), Ok(sizes));
        assert!(sections(".text many 0").is_err());
    }

    #[test]
    fn the_archive_has_code_and_no_state() {
        let file = fs::metadata(ARCHIVE).unwrap().len();
        let Sections { code, constants, state } = sections(&listed().unwrap()).unwrap();
        assert!(code > 0 && code + constants < file);
        assert_eq!(state, 0);
    }
}
