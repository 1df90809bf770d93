//! The CD run and the clip.
//!
//! What is lent to be written starts filled with a pattern, and an answer holds it whole, so that a
//! place that was not to be written shows when it was.

use celestial_solver::fit_wcs::{self, wrong};

use super::cd::{BAD_WEIGHTS, plates, random_mask, random_plate, random_weights, rows_at};
use super::{Call, Group};
use crate::case::{Answer, Case, Kind, bits};
use crate::ours::matching::Rows;
use crate::ours::run::{Draw, Ran};
use crate::random::Random;
use crate::rows::{self, Row, RowLists};
use crate::{bench, edges, ours, theirs};

pub const GROUP: Group = Group {
    name: "run",
    title: "The run and the clip",
    calls: &[RANSAC_FIT, SIGMA_CLIP],
    also: &[WHOLE_RUNS, WHOLE_CLIPS],
    notes: |_| Vec::new(),
    bench: bench::run::rows,
    tables: |_| Vec::new(),
};

/// What a lent output holds before the call.
const BYTE: u8 = 0xa5;
const WORD: u64 = 0xa5a5_a5a5_a5a5_a5a5;

// ---- ransac_fit

const RANSAC_FIT: Call = Call {
    name: "ransac_fit",
    takes: &[
        Kind::Floats, // px, py, xi, eta
        Kind::Floats,
        Kind::Floats,
        Kind::Floats,
        Kind::Numbers, // the votes
        Kind::Float,   // the limit
        Kind::Number,  // the trials
        Kind::Number,  // the length of the mask
    ],
    edges: |every| {
        let mut cases = Vec::new();
        for rows in rows::figures() {
            let n = rows.count();
            for limit in [0.0, -0.0, 10.0, 10.0f64.next_down(), 10.0f64.next_up(), 1e300] {
                for trials in [0, 1, 2, 10, 100] {
                    cases.push(run_case(&rows, &vec![3; n], limit, trials, n));
                }
            }
        }
        let mut cases: Vec<Case> = cases.into_iter().step_by(every.div_ceil(4)).collect();
        cases.extend(telling_runs());
        let square = square();
        let n = square.count();
        // pools of each size, votes for more and for fewer rows, the scope's two examples
        for votes in pools(n) {
            cases.push(run_case(&square, &votes, 1.0, 20, n));
        }
        for votes in [[30, 9, 9, 9], [30, 10, 10, 9], [29, 9, 9, 8], [4_294_967_295, 0, 0, 0]] {
            cases.push(run_case(&square, &votes, 1.0, 20, n));
        }
        // each refusal, one in the company of the next, and the untouched mask behind it
        let few = [3, 3, 3];
        cases.push(run_case(&square, &[3; 101], f64::NAN, 1001, 0));
        cases.push(run_case(&square, &few, -1.0, 1001, 0));
        cases.push(run_case(&square, &few, 1.0, u32::MAX, n));
        for limit in [f64::NAN, f64::INFINITY, -5e-324, -1.0, f64::MAX] {
            cases.push(run_case(&square, &few, limit, 5, n));
            cases.push(run_case(&square, &few, limit, 5, n - 1));
        }
        cases.extend([0, n - 1, n, n + 3].map(|room| run_case(&square, &few, 1.0, 5, room)));
        cases.extend([0, n - 1, n + 3].map(|room| run_case(&square, &[], 1.0, 5, room)));
        cases.extend([0, 1000].map(|trials| run_case(&square, &few, 0.0, trials, n + 2)));
        let refused = rows::refused();
        let refused = refused.iter().step_by(every.div_ceil(5));
        cases.extend(refused.map(|rows| run_case(rows, &few, 1.0, 5, rows.count())));
        cases.extend(at_the_limit());
        cases.extend(runs_of_a_hundred());
        cases
    },
    random: |random| {
        let n = random.one_of(&[0, 1, 2, 3, 4, 5, 6, 8, 12]);
        random_run(random, n, &[0, 1, 2, 10, 30])
    },
    count: 60_000,
    theirs: |case| run(case, theirs::run::ransac_fit),
    ours: |case| run(case, ours::run::ransac_fit),
};

/// Up to 100 rows and 1,000 trials.
const WHOLE_RUNS: Call = Call {
    name: "ransac_fit: whole",
    edges: |_| Vec::new(),
    random: |random| {
        let n = random.below(101) as usize;
        random_run(random, n, &[0, 1, 2, 10, 100, 1000, 1000])
    },
    count: 4_000,
    ..RANSAC_FIT
};

/// Nine rows that are where they belong, and three that are off.
fn square() -> RowLists {
    let mut rows: Vec<Row> = (0..9)
        .map(|i| (f64::from(i % 3) * 50.0, f64::from(i / 3) * 50.0))
        .map(|(x, y)| (x, y, x, y))
        .collect();
    rows.extend([(20.0, 20.0, 21.0, 20.0), (70.0, 20.0, 70.0, 22.0), (10.0, 90.0, 90.0, 10.0)]);
    RowLists::of(&rows)
}

/// Errors at the limit, to the last bit of their squares; and limits that no rounding stays below.
fn at_the_limit() -> Vec<Case> {
    // the pool is three corners, whose plate is the unit one to the last bit; the fourth row is off
    // by the limit, or by the root of the greatest float whose root is the limit
    let mut cases = Vec::new();
    for side in (-4..=4).map(|k| 2f64.powi(k)) {
        for up in [0.0, side * 2f64.powi(-26)] {
            let corners = [(0.0, 0.0, 0.0, 0.0), (1.0, 0.0, 1.0, 0.0), (0.0, 1.0, 0.0, 1.0)];
            let off = (4.0, 1.0, 4.0 + side, 1.0 + up);
            let rows = RowLists::of(&[&corners[..], &[off]].concat());
            for limit in edges::around(side) {
                cases.push(run_case(&rows, &[9, 9, 9, 0], limit, 10, 4));
            }
        }
    }
    let mut random = Random::new(3, "no room for a rounding");
    for limit in [0.0, 1e-16, 1e-15, 1e-13] {
        for n in [3, 4, 6] {
            for _ in 0..5 {
                let rows: Vec<Row> = (0..n)
                    .map(|_| [(); 4].map(|()| random.between(-9.0, 9.0)))
                    .map(|[px, py, xi, eta]| (px, py, xi, eta))
                    .collect();
                cases.push(run_case(&RowLists::of(&rows), &vec![2; n], limit, 30, n));
            }
        }
    }
    cases
}

/// As many rows as there may be, with a hundred and with a thousand trials.
fn runs_of_a_hundred() -> Vec<Case> {
    let mut random = Random::new(2, "a hundred");
    let mut cases = Vec::new();
    for place in 0..44 {
        let rows = rows::random(&mut random, 100);
        let most = random.one_of(&[1, 3, 10, 60]);
        let votes: Vec<u32> = (0..100).map(|_| 2 + random.below(most) as u32).collect();
        let limit = random.one_of(&[0.0, 0.5, 1.0, 3.0, 10.0]);
        cases.push(run_case(&rows, &votes, limit, [100, 1000][place % 2], 100));
    }
    cases
}

/// Votes of which none, one and so on up to n are at least a third of the greatest, and votes for
/// fewer and for more rows than n.
fn pools(n: usize) -> Vec<Vec<u32>> {
    let of = |size: usize| (0..n).map(|i| if i < size { 6 } else { 1 }).collect();
    let mut pools: Vec<Vec<u32>> = (0..=n).map(of).collect();
    pools.extend([vec![], vec![5; 3], vec![5; n - 1], vec![5; n + 4]]);
    // votes without a row count for the greatest
    let mut more = vec![2; n];
    more.push(9);
    pools.push(more);
    pools
}

fn run_case(rows: &RowLists, votes: &[u32], limit: f64, trials: u32, room: usize) -> Case {
    rows.fields().numbers(votes).float(limit).number(trials).number(room as u64)
}

fn random_run(random: &mut Random, n: usize, trials: &[u32]) -> Case {
    let rows = rows::random_or_bad(random, n);
    let most = random.one_of(&[1, 3, 10, 4_294_967_295]);
    let count = match random.below(8) {
        0 => random.below(n as u64 + 4) as usize,
        1 => n + 2,
        _ => n,
    };
    let votes: Vec<u32> = (0..count.min(101)).map(|_| random.below(most) as u32).collect();
    let limit = match random.below(40) {
        0 => random.one_of(&[f64::NAN, -1.0, f64::INFINITY]),
        1..8 => random.one_of(&[0.0, -0.0, 1.0, 10.0, 1e300]),
        _ => random.between(0.0, 20.0),
    };
    let trials = match random.below(100) {
        0 => 1001,
        _ => random.one_of(trials),
    };
    let room = random.one_of(&[n, n, n, n, n, n + 3, n.saturating_sub(1)]);
    run_case(&rows, &votes, limit, trials, room)
}

/// Three cases for each wrong port that answers them otherwise.
fn telling_runs() -> Vec<Case> {
    let mut random = Random::new(1, "telling runs");
    let mut cases = Vec::new();
    for wrong in wrong::RUNS {
        let mut found = 0;
        for _ in 0..200_000 {
            let n = random.one_of(&[4, 5, 6, 8, 12]);
            let lists = telling_rows(&mut random, n);
            let votes: Vec<u32> = (0..n).map(|_| random.one_of(&[1, 2, 3, 6])).collect();
            let limit = random.one_of(&[0.5, 1.0, 2.0, 3.0]);
            let trials = random.one_of(&[3, 10, 30]);
            let rows = tuples(&lists);
            let given: Vec<usize> = votes.iter().map(|&v| v as usize).collect();
            let right = fit_wcs::ransac_fit_of(&rows, &given, limit, trials);
            if right.ok() != wrong(&rows, &given, limit, trials).ok() {
                cases.push(run_case(&lists, &votes, limit, trials as u32, n));
                found += 1;
                if found == 3 {
                    break;
                }
            }
        }
        assert_eq!(found, 3, "no case tells this wrong port");
    }
    cases
}

/// Rows of a plate of whole pixels, some of which are off by whole ones.
fn telling_rows(random: &mut Random, n: usize) -> RowLists {
    let noise = random.one_of(&[0.0, 0.3, 1.0]);
    let rows: Vec<Row> = (0..n)
        .map(|_| {
            let [x, y] = [(); 2].map(|()| random.below(12) as f64);
            let [u, v] = [(); 2].map(|()| match random.below(3) {
                0 => random.one_of(&[-1.0, 1.0, 2.0]),
                _ => random.between(-noise, noise),
            });
            (x, y, x + u, y + v)
        })
        .collect();
    RowLists::of(&rows)
}

fn tuples(lists: &RowLists) -> Vec<Row> {
    let [px, py, xi, eta] = &lists.0;
    (0..px.len()).map(|i| (px[i], py[i], xi[i], eta[i])).collect()
}

fn run(case: &Case, by: fn(Rows, Draw, &mut [u8], &mut Ran) -> u32) -> Answer {
    let votes = case.numbers_at::<u32>(4);
    let draw = Draw { votes: &votes, limit: case.float_at(5), trials: case.number_at(6) };
    let mut mask = vec![BYTE; case.number_at(7)];
    let mut ran = Ran { tested: BYTE, on: WORD };
    let number = by(rows_at(case), draw, &mut mask, &mut ran);
    Answer::new().number(number).numbers(&mask).number(ran.tested).number(ran.on)
}

// ---- sigma_clip_loop_weighted

const SIGMA_CLIP: Call = Call {
    name: "sigma_clip_loop_weighted",
    takes: &[
        Kind::Floats, // px, py, xi, eta
        Kind::Floats,
        Kind::Floats,
        Kind::Floats,
        Kind::Numbers, // the mask
        Kind::Floats,  // the CD
        Kind::Floats,  // the weights
    ],
    edges: |every| {
        let mut cases = Vec::new();
        for rows in rows::figures() {
            let n = rows.count();
            for cd in plates() {
                cases.push(clip_case(&rows, &vec![1; n], &cd, &vec![1.0; n]));
            }
        }
        let mut cases: Vec<Case> = cases.into_iter().step_by(every.div_ceil(6)).collect();
        cases.extend(telling_clips());
        // the scope's example: weights whose roots underflow nothing, and whose sum does
        let low = RowLists::of(&[(0.125, 0.0, 0.0, 0.0); 3]);
        for weight in [5e-324, 1e-323, 1e-300, 0.0, 1.0] {
            cases.push(clip_case(&low, &[1; 3], &UNIT, &[weight; 3]));
        }
        // where that sum is zero, what is left may be one row or two, which are not fitted
        for left in [1, 2] {
            let rows: Vec<Row> =
                (0..3).map(|i| (if i < left { 0.0 } else { 0.125 }, 0.0, 0.0, 0.0)).collect();
            cases.push(clip_case(&RowLists::of(&rows), &[1; 3], &UNIT, &[5e-324; 3]));
        }
        // one error among n: at nine rows it is the threshold itself, but for the roundings
        for n in [3, 8, 9, 10, 11, 20] {
            for error in [0.5, 0.1, 3.0] {
                cases.push(clip_case(&one_off(n, error), &vec![1; n], &UNIT, &vec![1.0; n]));
            }
        }
        // a refit that cannot be solved: what is left has no weight
        for n in [10, 12] {
            let mut weights = vec![0.0; n];
            weights[n - 1] = 1.0;
            cases.push(clip_case(&one_off(n, 1.0), &vec![1; n], &UNIT, &weights));
            weights[0] = 1e-30;
            cases.push(clip_case(&one_off(n, 1.0), &vec![1; n], &UNIT, &weights));
        }
        let rows = one_off(3, 1.0);
        for cd in [vec![], vec![1.0; 5], vec![1.0; 7], vec![f64::NAN; 6], vec![f64::INFINITY; 6]] {
            cases.push(clip_case(&rows, &[1; 3], &cd, &[1.0; 3]));
            cases.push(clip_case(&rows, &[1; 2], &cd, &[1.0; 3]));
            cases.push(clip_case(&rows, &[1; 101], &cd, &[1.0; 3]));
            cases.push(clip_case(&rows, &[1; 3], &cd, &[1.0; 101]));
        }
        for place in 0..6 {
            let mut cd = UNIT;
            cd[place] = f64::INFINITY;
            cases.push(clip_case(&rows, &[1; 3], &cd, &[1.0; 3]));
        }
        for mask in [vec![1, 1, 2], vec![1; 4], vec![0; 3], vec![1, 0, 1]] {
            cases.push(clip_case(&rows, &mask, &UNIT, &[1.0; 3]));
        }
        for bad in BAD_WEIGHTS {
            cases.push(clip_case(&rows, &[1; 3], &UNIT, &[1.0, bad, 1.0]));
        }
        cases.push(clip_case(&rows, &[1; 3], &UNIT, &[1.0; 2]));
        cases.push(clip_case(&rows, &[1; 3], &UNIT, &[1.0; 101]));
        let refused = rows::refused();
        let refused = refused.iter().step_by(every.div_ceil(5));
        cases.extend(refused.map(|rows| {
            let n = rows.count();
            clip_case(rows, &vec![1; n], &UNIT, &vec![1.0; n])
        }));
        cases
    },
    random: |random| {
        let n = random.one_of(&[0, 1, 2, 3, 4, 6, 9, 10, 12]);
        random_clip(random, n)
    },
    count: 60_000,
    theirs: |case| clip(case, theirs::run::sigma_clip_loop_weighted),
    ours: |case| clip(case, ours::run::sigma_clip_loop_weighted),
};

/// Up to 100 rows.
const WHOLE_CLIPS: Call = Call {
    name: "sigma_clip_loop_weighted: whole",
    edges: |_| Vec::new(),
    random: |random| {
        let n = random.below(101) as usize;
        random_clip(random, n)
    },
    count: 20_000,
    ..SIGMA_CLIP
};

const UNIT: [f64; 6] = [1.0, 0.0, 0.0, 0.0, 1.0, 0.0];

/// n rows where they belong on the unit plate, but for the last.
fn one_off(n: usize, error: f64) -> RowLists {
    let place = |i: usize| (i as f64 * 3.0, (i * i % 7) as f64);
    let mut rows: Vec<Row> = (0..n).map(place).map(|(x, y)| (x, y, x, y)).collect();
    if let Some(last) = rows.last_mut() {
        last.2 = last.0 - error;
    }
    RowLists::of(&rows)
}

/// Errors on the unit plate that fall by a factor, so that a round rejects a few at a time.
fn falling(random: &mut Random, n: usize) -> RowLists {
    let factor = random.between(1.2, 8.0);
    let rows: Vec<Row> = (0..n)
        .map(|i| {
            let [x, y] = [(); 2].map(|()| random.below(1000) as f64);
            let error = random.signed(100.0 / factor.powi(i as i32));
            (x, y, x + error, y)
        })
        .collect();
    RowLists::of(&rows)
}

fn random_clip(random: &mut Random, n: usize) -> Case {
    let (rows, cd) = match random.below(5) {
        0 => (one_off(n, random.between(0.0, 5.0)), UNIT),
        1 => (falling(random, n), UNIT),
        2 => (rows::random_or_bad(random, n), random_plate(random)),
        _ => (rows::random_or_bad(random, n), [0.5, -0.25, 3.0, 0.25, 0.5, -7.0]),
    };
    let weights = match random.below(3) {
        0 => vec![random.between(0.0, 10.0); n],
        _ => random_weights(random, n),
    };
    clip_case(&rows, &random_mask(random, n), &cd, &weights)
}

/// Three cases for each wrong port that leaves another mask or CD.
fn telling_clips() -> Vec<Case> {
    let mut random = Random::new(1, "telling clips");
    let mut cases = Vec::new();
    for wrong in wrong::CLIPS {
        let mut found = 0;
        for _ in 0..400_000 {
            let n = random.one_of(&[9, 10, 24, 32]);
            let lists = match n {
                9 | 10 => one_off(n, random.between(0.0, 5.0)),
                _ => falling(&mut random, n),
            };
            let weights = match n {
                9 | 10 => vec![random.between(0.0, 10.0); n],
                _ => vec![1.0; n],
            };
            let (rows, on) = (tuples(&lists), vec![true; n]);
            let (mut mask, mut cd) = (on.clone(), UNIT);
            let done = fit_wcs::sigma_clip_loop_weighted(&rows, &mut mask, &mut cd, &weights);
            let (other, left, numbers) = wrong(&rows, &on, UNIT, &weights);
            if done.is_ok() != other || left != mask || numbers.map(bits) != cd.map(bits) {
                cases.push(clip_case(&lists, &vec![1; n], &UNIT, &weights));
                found += 1;
                if found == 3 {
                    break;
                }
            }
        }
        assert_eq!(found, 3, "no case tells this wrong port");
    }
    cases
}

fn clip_case(rows: &RowLists, mask: &[u8], cd: &[f64], weights: &[f64]) -> Case {
    rows.fields().numbers(mask).floats(cd).floats(weights)
}

fn clip(case: &Case, by: fn(Rows, &mut [u8], &mut [f64], &[f64]) -> u32) -> Answer {
    let mut mask = case.numbers_at::<u8>(4);
    let mut cd = case.floats_at(5).to_vec();
    let number = by(rows_at(case), &mut mask, &mut cd, case.floats_at(6));
    Answer::new().number(number).numbers(&mask).floats(&cd)
}
