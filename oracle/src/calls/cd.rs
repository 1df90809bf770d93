//! The solvers: CD fits, errors, residuals, rms, normal equations.
//!
//! A lent output starts filled with a pattern, and an answer holds it whole, so that a place that
//! was not to be written shows when it was.

use super::{Call, Group};
use crate::case::{Answer, Case, Kind};
use crate::ours::cd::Errors;
use crate::ours::matching::Rows;
use crate::random::Random;
use crate::rows::{self, RowLists};
use crate::{bench, edges, ours, theirs};

pub const GROUP: Group = Group {
    name: "cd",
    title: "The solvers",
    calls: &[
        FIT_CD_MATRIX_6,
        FIT_CD_WEIGHTED,
        COMPUTE_PIXEL_ERRORS,
        COMPUTE_RESIDUALS,
        RMS_ERROR,
        WEIGHTED_RMS_ERROR,
        SOLVE_NORMAL_EQUATIONS,
    ],
    also: &[LARGE_SYSTEMS],
    notes: |_| Vec::new(),
    bench: bench::cd::rows,
    tables: |_| Vec::new(),
};

/// What a lent output holds before the call.
const WORD: u64 = 0xa5a5_a5a5_a5a5_a5a5;
const FLOAT: f64 = f64::from_bits(WORD);

pub fn rows_at(case: &Case) -> Rows<'_> {
    [0, 1, 2, 3].map(|place| case.floats_at(place))
}

// ---- masks and weights

/// All on, all off, one off, one, two and three on.
fn masks(n: usize) -> Vec<Vec<u8>> {
    let only = |places: &[usize]| (0..n).map(|i| u8::from(places.contains(&i))).collect();
    let mut masks = vec![vec![1; n], vec![0; n]];
    if n > 0 {
        let but_one: Vec<usize> = (1..n).collect();
        masks.extend([only(&but_one), only(&[0]), only(&[0, n - 1]), only(&[0, n / 2, n - 1])]);
    }
    masks
}

pub fn random_mask(random: &mut Random, n: usize) -> Vec<u8> {
    let off = random.one_of(&[0, 0, 1, 2, 5]);
    let mut mask: Vec<u8> = (0..n).map(|_| u8::from(random.below(5) >= off)).collect();
    match random.below(150) {
        0 => drop(mask.pop()),
        1 if n > 0 => mask[random.below(n as u64) as usize] = random.one_of(&[2, 255]),
        _ => {}
    }
    mask
}

/// What is no weight.
pub const BAD_WEIGHTS: [f64; 5] = [f64::NAN, -5e-324, f64::INFINITY, 1_099_511_627_776.5, -1.0];

pub fn random_weights(random: &mut Random, n: usize) -> Vec<f64> {
    let style = random.below(6);
    let weight = |random: &mut Random| match style {
        0 => 1.0,
        1 => 0.0,
        2 => random.one_of(&[1e-30, 1e-29, 0.0, 5e-324, 1_099_511_627_776.0]),
        3 => random.between(0.0, 1e-28),
        _ => random.between(0.0, 100.0),
    };
    let mut weights: Vec<f64> = (0..n).map(|_| weight(random)).collect();
    match random.below(150) {
        0 => drop(weights.pop()),
        1 if n > 0 => weights[random.below(n as u64) as usize] = random.one_of(&BAD_WEIGHTS),
        _ => {}
    }
    weights
}

// ---- fit_cd_matrix_6

const FIT_CD_MATRIX_6: Call = Call {
    name: "fit_cd_matrix_6",
    takes: &[
        Kind::Floats, // px, py, xi, eta
        Kind::Floats,
        Kind::Floats,
        Kind::Floats,
        Kind::Numbers, // the mask
        Kind::Number,  // the length of the output
    ],
    edges: |every| {
        let mut cases = Vec::new();
        for rows in rows::figures() {
            for mask in masks(rows.count()) {
                cases.push(fit_case(&rows, &mask, 6));
            }
        }
        let mut cases: Vec<Case> = cases.into_iter().step_by(every.div_ceil(12)).collect();
        let plate = triangle(1.0);
        for room in [0, 5, 7] {
            cases.push(fit_case(&plate, &[1; 3], room));
            cases.push(fit_case(&plate, &[0; 3], room));
        }
        for mask in [vec![1, 1], vec![1, 1, 2], vec![1, 1, 1, 1], vec![255; 3], vec![1; 101]] {
            cases.push(fit_case(&plate, &mask, 6));
        }
        // pivots of 1e-30 and next to it: the sum of squares of one row's x
        for x in edges::around(1e-15).into_iter().chain([1.0000000000000001e-15]) {
            cases.push(fit_case(&RowLists::of(&[(x, 0.0, 1.0, 1.0)]), &[1], 6));
        }
        // a determinant of 1e-30 and next to it: the sums of this cross keep each axis to itself
        for scale in edges::around(1e-30) {
            let cross = [(1.0, 0.0), (-1.0, 0.0), (0.0, 1.0), (0.0, -1.0)];
            let rows = RowLists::of(&cross.map(|(x, y)| (x, y, scale * x, y)));
            cases.push(fit_case(&rows, &[1; 4], 6));
        }
        let refused = rows::refused();
        let refused = refused.iter().step_by(every.div_ceil(12));
        cases.extend(refused.map(|rows| fit_case(rows, &vec![1; rows.count()], 6)));
        cases
    },
    random: |random| {
        let n = random.one_of(&[0, 1, 2, 3, 4, 6, 12]);
        let rows = rows::random_or_bad(random, n);
        let mask = random_mask(random, n);
        fit_case(&rows, &mask, random.one_of(&[6, 6, 6, 6, 6, 9, 5]))
    },
    count: 100_000,
    theirs: |case| fit(case, theirs::cd::fit_cd_matrix_6),
    ours: |case| fit(case, ours::cd::fit_cd_matrix_6),
};

/// A right triangle with legs of this length, on a plate of its own.
fn triangle(leg: f64) -> RowLists {
    RowLists::of(&[(0.0, 0.0, 0.5, -0.0), (leg, 0.0, 1.5, 0.25), (0.0, leg, -0.0, 2.0)])
}

fn fit_case(rows: &RowLists, mask: &[u8], room: usize) -> Case {
    rows.fields().numbers(mask).number(room as u64)
}

fn fit(case: &Case, by: fn(Rows, &[u8], &mut [f64]) -> u32) -> Answer {
    let mut cd = vec![FLOAT; case.number_at(5)];
    let number = by(rows_at(case), &case.numbers_at::<u8>(4), &mut cd);
    Answer::new().number(number).floats(&cd)
}

// ---- fit_cd_weighted

const FIT_CD_WEIGHTED: Call = Call {
    name: "fit_cd_weighted",
    takes: &[
        Kind::Floats, // px, py, xi, eta
        Kind::Floats,
        Kind::Floats,
        Kind::Floats,
        Kind::Numbers, // the mask
        Kind::Floats,  // the weights
        Kind::Number,  // the length of the output
    ],
    edges: |every| {
        let mut cases = Vec::new();
        let weights = [0.0, -0.0, 1e-30, 1e-29, 5e-324, 1.0, 1_099_511_627_776.0];
        for rows in rows::figures() {
            for (mask, weight) in masks(rows.count()).iter().zip(weights.into_iter().cycle()) {
                cases.push(weighted_case(&rows, mask, &vec![weight; rows.count()], 6));
            }
        }
        let mut cases: Vec<Case> = cases.into_iter().step_by(every.div_ceil(12)).collect();
        let plate = triangle(1.0);
        for weight in weights.into_iter().flat_map(edges::around) {
            cases.push(weighted_case(&plate, &[1; 3], &[weight; 3], 6));
        }
        for lists in [vec![1.0; 2], vec![1.0; 4], vec![1.0; 101], vec![1.0, f64::NAN, 1.0]] {
            cases.push(weighted_case(&plate, &[1; 3], &lists, 6));
            cases.push(weighted_case(&plate, &[1; 2], &lists, 5));
        }
        cases.extend([0, 5, 7].map(|room| weighted_case(&plate, &[1; 3], &[0.0; 3], room)));
        let refused = rows::refused();
        let refused = refused.iter().step_by(every.div_ceil(5));
        cases.extend(refused.map(|rows| {
            let n = rows.count();
            weighted_case(rows, &vec![1; n], &vec![1.0; n], 6)
        }));
        cases
    },
    random: |random| {
        let n = random.one_of(&[0, 1, 2, 3, 4, 6, 12]);
        let rows = rows::random_or_bad(random, n);
        let (mask, weights) = (random_mask(random, n), random_weights(random, n));
        weighted_case(&rows, &mask, &weights, random.one_of(&[6, 6, 6, 6, 6, 9, 5]))
    },
    count: 100_000,
    theirs: |case| weighted(case, theirs::cd::fit_cd_weighted),
    ours: |case| weighted(case, ours::cd::fit_cd_weighted),
};

fn weighted_case(rows: &RowLists, mask: &[u8], weights: &[f64], room: usize) -> Case {
    rows.fields().numbers(mask).floats(weights).number(room as u64)
}

fn weighted(case: &Case, by: fn(Rows, &[u8], &[f64], &mut [f64]) -> u32) -> Answer {
    let mut cd = vec![FLOAT; case.number_at(6)];
    let mask = case.numbers_at::<u8>(4);
    let number = by(rows_at(case), &mask, case.floats_at(5), &mut cd);
    Answer::new().number(number).floats(&cd)
}

// ---- compute_pixel_errors

const COMPUTE_PIXEL_ERRORS: Call = Call {
    name: "compute_pixel_errors",
    takes: &[
        Kind::Floats, // px, py, xi, eta
        Kind::Floats,
        Kind::Floats,
        Kind::Floats,
        Kind::Numbers, // the mask
        Kind::Floats,  // the CD
        Kind::Number,  // the length of the output
    ],
    edges: |every| {
        let mut cases = Vec::new();
        for rows in rows::figures() {
            let n = rows.count();
            for (mask, cd) in masks(n).iter().zip(plates().into_iter().cycle().skip(n)) {
                cases.push(errors_case(&rows, mask, &cd, n));
            }
        }
        let mut cases: Vec<Case> = cases.into_iter().step_by(every.div_ceil(12)).collect();
        let plate = triangle(1.0);
        for cd in plates() {
            cases.push(errors_case(&plate, &[1, 0, 1], &cd, 4));
        }
        cases.extend([0, 2, 3, 5].map(|room| errors_case(&plate, &[1; 3], &plates()[0], room)));
        for cd in [vec![], vec![1.0; 5], vec![1.0; 7], vec![f64::NAN; 6], vec![f64::INFINITY; 6]] {
            cases.push(errors_case(&plate, &[1; 3], &cd, 3));
            cases.push(errors_case(&plate, &[1; 2], &cd, 2));
            cases.push(errors_case(&plate, &[1; 101], &cd, 2));
        }
        for place in 0..6 {
            let mut cd = plates()[0];
            cd[place] = f64::INFINITY;
            cases.push(errors_case(&plate, &[1; 3], &cd, 3));
        }
        let refused = rows::refused();
        let refused = refused.iter().step_by(every.div_ceil(5));
        cases
            .extend(refused.map(|rows| errors_case(rows, &vec![1; rows.count()], &plates()[0], 3)));
        cases
    },
    random: |random| {
        let n = random.one_of(&[0, 1, 3, 5, 12]);
        let rows = rows::random_or_bad(random, n);
        let mask = random_mask(random, n);
        let cd = random_plate(random);
        errors_case(&rows, &mask, &cd, random.one_of(&[n, n, n, n + 2, n.saturating_sub(1)]))
    },
    count: 60_000,
    theirs: |case| errors(case, theirs::cd::compute_pixel_errors),
    ours: |case| errors(case, ours::cd::compute_pixel_errors),
};

/// CDs: the unit one, a turned one, and such as have a determinant of 0, around 1e-30, infinite and
/// NaN.
pub fn plates() -> [[f64; 6]; 11] {
    let least = 1e-30f64;
    [
        [1.0, 0.0, 0.0, 0.0, 1.0, 0.0],
        [0.5, -0.25, 3.0, 0.25, 0.5, -7.0],
        [-1.0, 2.0, -0.0, 3.0, 1.0, 5.0],
        [1.0, 1.0, 0.0, 1.0, 1.0, 0.0],
        [0.0; 6],
        [-0.0, 0.0, -0.0, 0.0, -0.0, 0.0],
        [least, 0.0, 0.0, 0.0, 1.0, 0.0],
        [least.next_down(), 0.0, 0.0, 0.0, 1.0, 0.0],
        [1e200, 0.0, 0.0, 0.0, 1e200, 0.0],
        [1e200, 1e200, 0.0, 1e200, 1e200, 0.0],
        [1e-200, 0.0, 1e300, 0.0, 1e-200, -1e300],
    ]
}

pub fn random_plate(random: &mut Random) -> [f64; 6] {
    match random.below(6) {
        0 => [(); 6].map(|()| random.pattern()),
        1 => random.one_of(&plates()),
        2 => [(); 6].map(|()| random.one_of(&[0.0, -0.0, 1.0, -1.0, 1e-15, 1e200])),
        _ => [(); 6].map(|()| random.between(-2.0, 2.0)),
    }
}

fn errors_case(rows: &RowLists, mask: &[u8], cd: &[f64], room: usize) -> Case {
    rows.fields().numbers(mask).floats(cd).number(room as u64)
}

fn errors(case: &Case, by: fn(Rows, &[u8], &[f64], &mut [f64]) -> u32) -> Answer {
    let mut errors = vec![FLOAT; case.number_at(6)];
    let mask = case.numbers_at::<u8>(4);
    let number = by(rows_at(case), &mask, case.floats_at(5), &mut errors);
    Answer::new().number(number).floats(&errors)
}

// ---- compute_residuals

const COMPUTE_RESIDUALS: Call = Call {
    name: "compute_residuals",
    takes: &[
        Kind::Floats, // px, py, xi, eta
        Kind::Floats,
        Kind::Floats,
        Kind::Floats,
        Kind::Floats,  // the WCS
        Kind::Numbers, // the lengths of the three outputs
    ],
    edges: |every| {
        let mut cases = Vec::new();
        for rows in rows::figures() {
            let n = rows.count();
            cases.extend(solutions().map(|wcs| residuals_case(&rows, &wcs, [n; 3])));
        }
        let mut cases: Vec<Case> = cases.into_iter().step_by(every.div_ceil(5)).collect();
        let plate = triangle(1.0);
        for wcs in solutions() {
            for rooms in [[0; 3], [3, 2, 3], [2, 3, 3], [3, 3, 2], [5, 3, 4]] {
                cases.push(residuals_case(&plate, &wcs, rooms));
            }
        }
        let far = 1_048_577.0;
        for bad in [f64::NAN, f64::INFINITY, far] {
            for place in 0..6 {
                let mut wcs = solutions()[0];
                wcs[place] = bad;
                cases.push(residuals_case(&plate, &wcs, [3; 3]));
            }
        }
        cases.push(residuals_case(&plate, &[1.0; 5], [3; 3]));
        cases.push(residuals_case(&plate, &[f64::NAN; 7], [0; 3]));
        let refused = rows::refused();
        let refused = refused.iter().step_by(every.div_ceil(5));
        cases.extend(refused.map(|rows| residuals_case(rows, &solutions()[0], [3; 3])));
        cases
    },
    random: |random| {
        let n = random.one_of(&[0, 1, 3, 5, 12]);
        let rows = rows::random_or_bad(random, n);
        let [a, b, x, c, d, y] = random_plate(random);
        let wcs = [x, y, a, b, c, d];
        let mut rooms = [n; 3];
        if random.below(6) == 0 {
            rooms = rooms.map(|_| random.below(n as u64 + 2) as usize);
        }
        residuals_case(&rows, &wcs, rooms)
    },
    count: 60_000,
    theirs: |case| residuals(case, theirs::cd::compute_residuals),
    ours: |case| residuals(case, ours::cd::compute_residuals),
};

/// The plates with their reference pixels, zeros of both signs among them.
fn solutions() -> [[f64; 6]; 11] {
    plates().map(|[a, b, x, c, d, y]| {
        let held = |x: f64| x.clamp(-1_048_576.0, 1_048_576.0);
        [held(x), held(y), a, b, c, d]
    })
}

fn residuals_case(rows: &RowLists, wcs: &[f64], rooms: [usize; 3]) -> Case {
    rows.fields().floats(wcs).numbers(&rooms.map(|room| room as u64))
}

fn residuals(case: &Case, by: fn(Rows, &[f64], &mut Errors, &mut u64) -> u32) -> Answer {
    let rooms = case.numbers_at::<usize>(5);
    let mut errors = [0, 1, 2].map(|place| vec![FLOAT; rooms[place]]);
    let mut count = WORD;
    let number = by(rows_at(case), case.floats_at(4), &mut errors, &mut count);
    let [err_x, err_y, err_px] = &errors;
    Answer::new().number(number).floats(err_x).floats(err_y).floats(err_px).number(count)
}

// ---- rms_error, weighted_rms_error

const RMS_ERROR: Call = Call {
    name: "rms_error",
    takes: &[Kind::Floats],
    edges: |every| error_lists(every).iter().map(|list| Case::new().floats(list)).collect(),
    random: |random| Case::new().floats(&random_errors(random)),
    count: 60_000,
    theirs: |case| rms(case, theirs::cd::rms_error),
    ours: |case| rms(case, ours::cd::rms_error),
};

const WEIGHTED_RMS_ERROR: Call = Call {
    name: "weighted_rms_error",
    takes: &[Kind::Floats; 2],
    edges: |every| {
        let mut cases = Vec::new();
        for list in error_lists(every) {
            let n = list.len();
            let weights = [vec![1.0; n], vec![0.0; n], vec![1.0; n + 1], vec![-1.0; n]];
            cases.extend(weights.map(|weights| Case::new().floats(&list).floats(&weights)));
        }
        cases
    },
    random: |random| {
        let errors = random_errors(random);
        let mut weights: Vec<f64> = errors.iter().map(|_| random_error(random)).collect();
        if random.below(30) == 0 {
            weights.pop();
        }
        Case::new().floats(&errors).floats(&weights)
    },
    count: 60_000,
    theirs: |case| weighted_rms(case, theirs::cd::weighted_rms_error),
    ours: |case| weighted_rms(case, ours::cd::weighted_rms_error),
};

/// None, one of each kind, a hundred and one more.
fn error_lists(every: usize) -> Vec<Vec<f64>> {
    let mut lists = vec![vec![], vec![-0.0; 3], vec![0.1; 100], vec![1.0; 101]];
    let singles = edges::specials().into_iter().step_by(every.div_ceil(8));
    lists.extend(singles.map(|x| vec![x]));
    lists.push(edges::specials());
    lists
}

fn random_errors(random: &mut Random) -> Vec<f64> {
    let n = random.one_of(&[0, 1, 2, 5, 12, 12, 100, 101]);
    (0..n).map(|_| random_error(random)).collect()
}

fn random_error(random: &mut Random) -> f64 {
    match random.below(40) {
        0 => random.pattern(),
        1 => random.one_of(&[0.0, -0.0, f64::INFINITY, 1e200, 5e-324]),
        _ => random.between(0.0, 20.0),
    }
}

fn rms(case: &Case, by: fn(&[f64], &mut f64) -> u32) -> Answer {
    let mut rms = FLOAT;
    let number = by(case.floats_at(0), &mut rms);
    Answer::new().number(number).float(rms)
}

fn weighted_rms(case: &Case, by: fn(&[f64], &[f64], &mut f64) -> u32) -> Answer {
    let mut rms = FLOAT;
    let number = by(case.floats_at(0), case.floats_at(1), &mut rms);
    Answer::new().number(number).float(rms)
}

// ---- solve_normal_equations

const SOLVE_NORMAL_EQUATIONS: Call = Call {
    name: "solve_normal_equations",
    takes: &[
        Kind::Floats, // the matrix, row by row
        Kind::Floats, // the right side
        Kind::Number, // n
        Kind::Number, // the length of the output
    ],
    edges: |_| {
        let mut cases = Vec::new();
        let mut random = Random::new(7, "systems");
        for n in [0, 1, 2, 3, 5, 9] {
            let (a, b) = random_system(&mut random, n);
            let rooms = [n, n + 1, n.saturating_sub(1)];
            cases.extend(rooms.map(|room| system_case(&a, &b, n as u32, room)));
            cases.push(system_case(&a, &b, n as u32 + 1, n));
            cases.push(system_case(&a, &a, n as u32, n));
            // a singular one: the last row is the first
            if n > 1 {
                let mut same = a.clone();
                same.copy_within(..n, n * (n - 1));
                cases.push(system_case(&same, &b, n as u32, n));
            }
            // NaN on the diagonal and below it
            for place in [0, n.saturating_sub(1) * n, n * n / 2] {
                let mut bad = a.clone();
                bad.iter_mut().skip(place).take(1).for_each(|x| *x = f64::NAN);
                cases.push(system_case(&bad, &b, n as u32, n));
            }
        }
        for pivot in edges::around(1e-30).into_iter().flat_map(|x| [x, -x]) {
            cases.push(system_case(&[pivot], &[1.0], 1, 1));
            cases.push(system_case(&[1.0, 0.0, 0.0, pivot], &[1.0, 2.0], 2, 2));
            cases.push(system_case(&[0.0, 1.0, pivot, 0.0], &[1.0, 2.0], 2, 2));
        }
        for n in [55, 56, 4_294_967_295] {
            cases.push(system_case(&[1.0], &[1.0], n, 1));
        }
        for n in [53, 54] {
            let (a, b) = random_system(&mut random, n);
            cases.push(system_case(&a, &b, n as u32, n));
        }
        // a zero below zero on the right, whose sign goes through the elimination
        cases.push(system_case(&[1.0, 0.0, 1.0, 1.0], &[-0.0; 2], 2, 2));
        cases
    },
    random: |random| {
        let n = random.one_of(&[1, 2, 3, 3, 4, 6]);
        let (mut a, b) = random_system(random, n);
        if random.below(20) == 0 {
            let place = random.below(a.len() as u64) as usize;
            a[place] = random.one_of(&[f64::NAN, f64::INFINITY, 1e-30, 0.0, -0.0, 1e300]);
        }
        system_case(&a, &b, n as u32, random.one_of(&[n, n, n, n + 2, n - 1]))
    },
    count: 100_000,
    theirs: |case| solve(case, theirs::cd::solve_normal_equations),
    ours: |case| solve(case, ours::cd::solve_normal_equations),
};

/// Systems of as many rows as there may be.
const LARGE_SYSTEMS: Call = Call {
    name: "solve_normal_equations: large",
    edges: |_| Vec::new(),
    random: |random| {
        let n = 1 + random.below(54) as usize;
        let (a, b) = random_system(random, n);
        system_case(&a, &b, n as u32, n)
    },
    count: 3_000,
    ..SOLVE_NORMAL_EQUATIONS
};

/// A system of n rows: any, symmetric, small whole numbers with many ties, or ill-conditioned.
fn random_system(random: &mut Random, n: usize) -> (Vec<f64>, Vec<f64>) {
    let style = random.below(5);
    let mut a: Vec<f64> = (0..n * n)
        .map(|place| match style {
            0 => random.below(5) as f64 - 2.0,
            1 => 1.0 / (1 + place / n.max(1) + place % n.max(1)) as f64,
            2 => random.between(-1.0, 1.0) * 1e-15,
            _ => random.between(-1.0, 1.0),
        })
        .collect();
    if style == 3 {
        for row in 0..n {
            for column in 0..row {
                a[row * n + column] = a[column * n + row];
            }
        }
    }
    let b = (0..n).map(|_| random.between(-10.0, 10.0)).collect();
    (a, b)
}

fn system_case(a: &[f64], b: &[f64], n: u32, room: usize) -> Case {
    Case::new().floats(a).floats(b).number(n).number(room as u64)
}

fn solve(case: &Case, by: fn(&[f64], &[f64], u32, &mut [f64]) -> u32) -> Answer {
    let mut x = vec![FLOAT; case.number_at(3)];
    let number = by(case.floats_at(0), case.floats_at(1), case.number_at(2), &mut x);
    Answer::new().number(number).floats(&x)
}
