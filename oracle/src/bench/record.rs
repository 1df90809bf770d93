//! The longest record and the shortest, written and read back, against the oracle's own, which
//! allocate.

use super::Row;
use crate::ours::record::{Lent, Solution};
use crate::random::Random;
use crate::{ours, theirs};

const MOST: usize = 1065;

const OWN: &str = "the oracle's own; the Rust has none";

type Write = fn(Solution, &mut [u8], &mut u64) -> u32;
type Read = fn(&[u8], &mut Lent) -> u32;

/// The names of the rows of one record, written and read back.
struct Names {
    written: &'static str,
    read: &'static str,
}

const LONGEST: Names = Names { written: "record of order 5", read: "record of order 5, read back" };

const SHORTEST: Names = Names {
    written: "record of order 2, none kept",
    read: "record of order 2, none kept, read back",
};

pub fn rows(random: &mut Random) -> Vec<Row> {
    let wcs = [(); 6].map(|()| random.between(-1000.0, 1000.0));
    let lists: Vec<[f64; 18]> =
        (0..8).map(|_| [(); 18].map(|()| random.between(1.0, 2.0))).collect();
    let longest = move |list: &[f64; 18], by: Write| {
        write(
            Solution { rows_used: 100, wcs: &wcs, order: 5, a: list, b: list, sums: &list[..3] },
            by,
        )
    };
    let shortest = move |list: &[f64; 18], by: Write| {
        let none = &[0.0; 3];
        write(
            Solution { rows_used: 0, wcs: &wcs, order: 2, a: none, b: none, sums: &list[..3] },
            by,
        )
    };
    let mut rows = of_record(LONGEST, &lists, longest);
    rows.extend(of_record(SHORTEST, &lists, shortest));
    rows
}

/// Writing and reading the records of these lists.
fn of_record(
    names: Names,
    lists: &[[f64; 18]],
    write: impl Fn(&[f64; 18], Write) -> ([u8; MOST], usize) + Copy + 'static,
) -> Vec<Row> {
    let text = |list| {
        let (text, length) = write(list, theirs::record::write_record);
        text[..length].to_vec()
    };
    let texts: Vec<Vec<u8>> = lists.iter().map(text).collect();
    let written =
        |by, call: Write| Row::over(names.written, by, lists, move |list| write(list, call));
    let read = |by, call: Read| Row::over(names.read, by, &texts, move |text| read(text, call));
    vec![
        written("Moorspindle", ours::record::write_record).of("write_record"),
        written(OWN, theirs::record::write_record),
        read("Moorspindle", ours::record::read_record).of("read_record"),
        read(OWN, theirs::record::read_record),
    ]
}

fn write(of: Solution, by: Write) -> ([u8; MOST], usize) {
    let (mut text, mut written) = ([0; MOST], 0);
    by(of, &mut text, &mut written);
    (text, written as usize)
}

/// All that was read, so that no part of it can be left out.
fn read(text: &[u8], by: Read) -> ([f64; 6], [f64; 3], [[f64; 18]; 2]) {
    let (mut wcs, mut sums, [mut a, mut b]) = ([0.0; 6], [0.0; 3], [[0.0; 18]; 2]);
    let mut lent = Lent {
        format: 0,
        rows_used: 0,
        wcs: &mut wcs,
        order: 0,
        a: &mut a,
        b: &mut b,
        sums: &mut sums,
        line: 0,
    };
    by(text, &mut lent);
    (wcs, sums, [a, b])
}
