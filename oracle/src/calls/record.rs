//! The record.
//!
//! What is lent to be written starts filled with a pattern, and an answer holds it whole, so that a
//! place that was not to be written shows when it was.

use super::reader::{READ_RECORD, REAL_READS, WRITTEN_BACK};
use super::sip::camera;
use super::{Call, Group};
use crate::case::{Answer, Case, Kind};
use crate::ours::record::Solution;
use crate::ours::sip::Lent;
use crate::random::Random;
use crate::{bench, edges, ours, theirs};

pub const GROUP: Group = Group {
    name: "record",
    title: "The record",
    calls: &[WRITE_RECORD, READ_RECORD],
    also: &[REAL_FITS, REAL_READS, WRITTEN_BACK],
    notes: |_| Vec::new(),
    bench: bench::record::rows,
    tables: |_| Vec::new(),
};

/// What a lent output holds before the call.
const BYTE: u8 = 0xa5;
pub const WORD: u64 = 0xa5a5_a5a5_a5a5_a5a5;

/// The bytes of the longest record.
const MOST: usize = 1065;

const WRITE_RECORD: Call = Call {
    name: "write_record",
    takes: &[
        Kind::Number, // the rows used
        Kind::Floats, // the WCS
        Kind::Number, // the order
        Kind::Floats, // a, b
        Kind::Floats,
        Kind::Floats, // the sums
        Kind::Number, // the length of the text
    ],
    edges: |every| {
        let mut cases = Vec::new();
        // the scope's record; a buffer exactly full, one byte short, and a byte over
        cases.extend([258, 257, 259, 0].map(|room| Given::settled().case(room)));
        for order in 2..=5 {
            // none kept, all kept, and each term alone on each axis, of both signs
            let n = terms(order);
            let dropped = [0.0, -0.0, 1e-20, -1e-20, f64::NAN];
            for c in dropped.into_iter().chain([1.5, -1.5, f64::INFINITY, f64::NEG_INFINITY]) {
                let of = Given { order, a: vec![c; n], b: vec![c; n], ..Given::settled() };
                cases.extend(of.around());
            }
            for i in 0..n {
                let mut one = vec![0.0; n];
                one[i] = [2.5, -2.5][i % 2];
                let of = Given { order, a: one.clone(), b: vec![0.0; n], ..Given::settled() };
                cases.push(of.case(MOST));
                let of = Given { order, a: vec![0.0; n], b: one, ..Given::settled() };
                cases.push(of.case(MOST));
            }
            // a coefficient too few or too many, on either axis
            for (a, b) in [(n - 1, n), (n, n - 1), (n + 1, n), (n, n + 1), (0, n), (n, 0)] {
                let of = Given { order, a: vec![1.0; a], b: vec![1.0; b], ..Given::settled() };
                cases.push(of.case(MOST));
            }
        }
        let mut cases: Vec<Case> = cases.into_iter().step_by(every.div_ceil(5)).collect();
        // the least coefficient and its neighbours, of both signs
        for c in edges::around(1e-20).into_iter().flat_map(|c| [c, -c]) {
            cases.push(Given { a: vec![0.0, c, 0.0], ..Given::settled() }.case(MOST));
        }
        // the bits of floats
        for x in edges::specials() {
            cases.push(Given { sums: vec![x, -x, x], ..Given::settled() }.case(MOST));
            cases.push(Given { b: vec![x; 3], ..Given::settled() }.case(MOST));
        }
        // one digit of the rows, two and three
        for rows in [0, 9, 10, 99, 100] {
            cases.extend(Given { rows, ..Given::settled() }.around());
        }
        // each refusal, one in the company of the next
        for rows in [0, 9, 10, 99, 100, 101, 4_294_967_295] {
            cases.push(Given { rows, ..Given::settled() }.case(MOST));
            cases.push(Given { rows, wcs: vec![1.0; 5], ..Given::settled() }.case(MOST));
            cases.push(Given { rows, sums: vec![1.0; 4], a: vec![], ..Given::settled() }.case(0));
        }
        for order in [0, 1, 2, 3, 4, 5, 6, 9, 4_294_967_295] {
            for n in [0, 3, 18] {
                let of = Given { order, a: vec![1.0; n], b: vec![1.0; n], ..Given::settled() };
                cases.push(of.case(MOST));
                let wcs = vec![f64::NAN, 0.0, 1.0, 0.0, 0.0, 1.0];
                cases.push(Given { wcs, ..of }.case(MOST));
            }
        }
        for place in 0..6 {
            for x in [1_048_576.0, 1_048_576.0f64.next_up(), f64::MAX, f64::INFINITY, f64::NAN] {
                let mut of = Given::settled();
                of.wcs[place] = -x;
                cases.push(of.case(MOST));
            }
        }
        for (w, s) in [(0, 3), (5, 3), (7, 3), (6, 0), (6, 2), (6, 4)] {
            let of = Given { wcs: vec![1.0; w], sums: vec![1.0; s], ..Given::settled() };
            cases.push(of.case(MOST));
        }
        cases
    },
    random: |random| {
        let of = random_solution(random);
        let length = of.length();
        let room = match random.below(6) {
            0 => length,
            1 => length.saturating_sub(1),
            2 => random.below(MOST as u64 + 20) as usize,
            _ => length + random.below(12) as usize,
        };
        of.case(room)
    },
    count: 200_000,
    theirs: |case| run(case, theirs::record::write_record),
    ours: |case| run(case, ours::record::write_record),
};

/// The records of fields of a camera that were fitted, into as much room as they need, and a byte less.
const REAL_FITS: Call = Call {
    name: "write_record: of real fits",
    edges: |_| Vec::new(),
    random: |random| {
        let of = real_fit(random);
        let length = of.length();
        of.case(random.one_of(&[length, length, length, length - 1, length + 9]))
    },
    count: 2_000,
    ..WRITE_RECORD
};

type Write = fn(Solution, &mut [u8], &mut u64) -> u32;

/// A solution by value.
pub struct Given {
    pub rows: u64,
    pub wcs: Vec<f64>,
    pub order: u32,
    pub a: Vec<f64>,
    pub b: Vec<f64>,
    pub sums: Vec<f64>,
}

impl Given {
    /// The solution of the scope's record.
    pub fn settled() -> Given {
        Given {
            rows: 6,
            wcs: vec![0.0, 0.0, 1.0, 0.0, 0.0, 1.0],
            order: 2,
            a: vec![0.5, 0.0, 0.0],
            b: vec![0.0; 3],
            sums: vec![0.5, 0.0, 0.0],
        }
    }

    fn case(&self, room: usize) -> Case {
        let start = Case::new().number(self.rows).floats(&self.wcs).number(self.order);
        start.floats(&self.a).floats(&self.b).floats(&self.sums).number(room as u64)
    }

    /// Its record, empty where it has none.
    pub fn text(&self) -> Vec<u8> {
        self.text_by(theirs::record::write_record)
    }

    pub fn text_by(&self, by: Write) -> Vec<u8> {
        let (mut text, mut written) = (vec![0; MOST], 0);
        by(self.lent(), &mut text, &mut written);
        text.truncate(written as usize);
        text
    }

    /// The record that it has, in a format.
    pub fn text_in(&self, format: u32) -> Vec<u8> {
        theirs::record::text_in(format, self.lent()).into_bytes()
    }

    fn length(&self) -> usize {
        self.text().len()
    }

    /// The buffer exactly full, one byte short, and a few bytes over.
    fn around(&self) -> [Case; 3] {
        let n = self.length();
        [n, n - 1, n + 3].map(|room| self.case(room))
    }

    fn lent(&self) -> Solution<'_> {
        Solution {
            rows_used: self.rows,
            wcs: &self.wcs,
            order: self.order,
            a: &self.a,
            b: &self.b,
            sums: &self.sums,
        }
    }
}

pub fn terms(order: u32) -> usize {
    (2..=order as usize).map(|total| total + 1).sum()
}

pub fn random_solution(random: &mut Random) -> Given {
    let rows = match random.below(20) {
        0 => random.one_of(&[101, 1000, 4_294_967_295]),
        _ => random.below(101),
    };
    let order = match random.below(20) {
        0 => random.one_of(&[0, 1, 6, 7, 9]),
        _ => random.one_of(&[2, 3, 4, 5]),
    };
    let mut n = terms(order.min(5));
    if random.below(30) == 0 {
        n = random.below(20) as usize;
    }
    let odds = random.one_of(&[1, 2, 4, 1000]);
    let mut axis = || (0..n).map(|_| coefficient(random, odds)).collect();
    let (a, b) = (axis(), axis());
    let mut wcs: Vec<f64> = (0..6).map(|_| random.between(-2000.0, 2000.0)).collect();
    match random.below(30) {
        0 => wcs[random.below(6) as usize] = random.pattern(),
        1 => wcs.truncate(5),
        _ => {}
    }
    let mut sums = vec![random.pattern(), random.between(0.0, 9.0), random.subnormal()];
    if random.below(40) == 0 {
        sums.pop();
    }
    Given { rows, wcs, order, a, b, sums }
}

/// What a SIP fit hands out, of the first field that can be fitted.
pub fn real_fit(random: &mut Random) -> Given {
    loop {
        let order = 2 + random.below(4) as u32;
        let n = 20 + random.below(81) as usize;
        let (noise, off) = (random.one_of(&[0.0, 0.2]), random.below(8) as usize);
        let field = camera(random, n, noise, off, 2.0);
        let room = terms(order);
        let mut lent =
            Lent { a: vec![0.0; room], b: vec![0.0; room], rows_used: 0, sums: vec![0.0; 3] };
        if ours::sip::fit_sip(field.lists(), &field.snr, &field.wcs, order, &mut lent) == 0 {
            let Lent { a, b, rows_used: rows, sums } = lent;
            return Given { rows, wcs: field.wcs, order, a, b, sums };
        }
    }
}

/// One of `odds` is dropped, more or less.
fn coefficient(random: &mut Random, odds: u64) -> f64 {
    if random.below(odds) == 0 {
        return random.one_of(&[0.0, -0.0, 1e-20, -1e-20, f64::NAN, 5e-324, 1e-21]);
    }
    match random.below(6) {
        0 => random.pattern(),
        1 => random.one_of(&[f64::INFINITY, f64::NEG_INFINITY]),
        2 => {
            let least = random.near(1e-20, 3);
            random.signed(least)
        }
        _ => random.between(-1.0, 1.0),
    }
}

fn run(case: &Case, by: Write) -> Answer {
    let of = Solution {
        rows_used: case.number_at(0),
        wcs: case.floats_at(1),
        order: case.number_at(2),
        a: case.floats_at(3),
        b: case.floats_at(4),
        sums: case.floats_at(5),
    };
    let (mut text, mut written) = (vec![BYTE; case.number_at(6)], WORD);
    let number = by(of, &mut text, &mut written);
    Answer::new().number(number).numbers(&text).number(written)
}
