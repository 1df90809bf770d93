//! The solvers, against the Rust. Lists and outputs are made beforehand; what the Rust allocates in
//! a call is its own time.

use std::cell::RefCell;

use celestial_solver::fit_wcs::{self, StarResidual};
use celestial_solver::match_field::StarPair;

use super::Row;
use crate::ours;
use crate::random::Random;
use crate::rows::RowLists;

const LISTS: usize = 16;

/// A hundred rows of a plate, bent a little, all of them on.
#[derive(Clone)]
struct Plate {
    lists: RowLists,
    rows: Vec<celestial_solver::Row>,
    mask: Vec<u8>,
    on: Vec<bool>,
    weights: Vec<f64>,
}

pub fn rows(random: &mut Random) -> Vec<Row> {
    let plates: Vec<Plate> = (0..LISTS).map(|_| plate(random)).collect();
    let mut rows = fits(&plates);
    rows.extend(residuals(&plates));
    rows.extend(rms(&plates));
    rows.extend(weighted_rms(&plates));
    rows.extend(equations(random));
    rows
}

fn fits(plates: &[Plate]) -> Vec<Row> {
    let errors = RefCell::new(vec![0.0; 100]);
    vec![
        Row::over("CD fit of 100", "Moorspindle", plates, |plate| {
            let mut cd = [0.0; 6];
            ours::cd::fit_cd_matrix_6(lists(plate), &plate.mask, &mut cd);
            cd
        })
        .of("fit_cd_matrix_6"),
        Row::over("CD fit of 100", "the Rust", plates, |plate| {
            fit_wcs::fit_cd_matrix_6(&plate.rows, &plate.on)
        }),
        Row::over("weighted CD fit of 100", "Moorspindle", plates, |plate| {
            let mut cd = [0.0; 6];
            ours::cd::fit_cd_weighted(lists(plate), &plate.mask, &plate.weights, &mut cd);
            cd
        })
        .of("fit_cd_weighted"),
        Row::over("weighted CD fit of 100", "the Rust", plates, |plate| {
            fit_wcs::fit_cd_weighted(&plate.rows, &plate.on, &plate.weights)
        }),
        Row::over("pixel errors of 100", "Moorspindle", plates, move |plate| {
            let mut errors = errors.borrow_mut();
            ours::cd::compute_pixel_errors(lists(plate), &plate.mask, &CD, &mut errors)
        })
        .of("compute_pixel_errors"),
        Row::over("pixel errors of 100", "the Rust", plates, |plate| {
            fit_wcs::compute_pixel_errors(&plate.rows, &plate.on, CD)
        }),
        Row::over("pixel errors of 100", "libm's root in software", plates, |plate| {
            fit_wcs::software::compute_pixel_errors(&plate.rows, &plate.on, CD)
        }),
        Row::over("pixel errors of 100", "the hardware's root", plates, |plate| {
            fit_wcs::hardware::compute_pixel_errors(&plate.rows, &plate.on, CD)
        }),
    ]
}

fn equations(random: &mut Random) -> Vec<Row> {
    let mut rows = Vec::new();
    let systems = [3, 18, 54].map(|n| (0..LISTS).map(|_| system(random, n)).collect::<Vec<_>>());
    let names = ["equations, n = 3", "equations, n = 18", "equations, n = 54"];
    for (name, systems) in names.into_iter().zip(systems) {
        let ours = Row::over(name, "Moorspindle", &systems, |(a, b)| {
            let mut x = [0.0; 54];
            ours::cd::solve_normal_equations(a, b, b.len() as u32, &mut x);
            x
        });
        rows.push(ours.of("solve_normal_equations"));
        rows.push(Row::over(name, "the Rust", &systems, |(a, b)| {
            fit_wcs::solve_normal_equations(a, b, b.len())
        }));
    }
    rows
}

/// The errors of a solution, axis by axis and together: a root for each row.
fn residuals(plates: &[Plate]) -> Vec<Row> {
    const NAME: &str = "residuals of 100";
    let pairs: Vec<Vec<&'static StarPair>> = plates.iter().map(pairs_of).collect();
    let errors = RefCell::new([(); 3].map(|()| vec![0.0; 100]));
    vec![
        Row::over(NAME, "Moorspindle", plates, move |plate| {
            let mut residuals = 0;
            let mut errors = errors.borrow_mut();
            ours::cd::compute_residuals(lists(plate), &WCS, &mut errors, &mut residuals);
            residuals
        })
        .of("compute_residuals"),
        Row::over(NAME, "the Rust", &pairs, |pairs| fit_wcs::residuals_of(pairs, WCS)),
        Row::over(NAME, "libm's root in software", &pairs, |pairs| {
            fit_wcs::software::residuals_of(pairs, WCS)
        }),
        Row::over(NAME, "the hardware's root", &pairs, |pairs| {
            fit_wcs::hardware::residuals_of(pairs, WCS)
        }),
    ]
}

/// One root for all rows.
fn rms(plates: &[Plate]) -> Vec<Row> {
    const NAME: &str = "rms of 100";
    let residuals = their_residuals(plates);
    vec![
        Row::over(NAME, "Moorspindle", &errors_of(&residuals), |errors| {
            let mut rms = 0.0;
            ours::cd::rms_error(errors, &mut rms);
            rms
        })
        .of("rms_error"),
        Row::over(NAME, "the Rust", &residuals, |list| fit_wcs::rms_of(list)),
        Row::over(NAME, "libm's root in software", &residuals, |list| {
            fit_wcs::software::rms_of(list)
        }),
        Row::over(NAME, "the hardware's root", &residuals, |list| fit_wcs::hardware::rms_of(list)),
    ]
}

fn weighted_rms(plates: &[Plate]) -> Vec<Row> {
    const NAME: &str = "weighted rms of 100";
    let residuals = their_residuals(plates);
    let weights = plates.iter().map(|plate| plate.weights.clone());
    let ours: Vec<_> = errors_of(&residuals).into_iter().zip(weights.clone()).collect();
    let theirs: Vec<_> = residuals.into_iter().zip(weights).collect();
    vec![
        Row::over(NAME, "Moorspindle", &ours, |(errors, weights)| {
            let mut rms = 0.0;
            ours::cd::weighted_rms_error(errors, weights, &mut rms);
            rms
        })
        .of("weighted_rms_error"),
        Row::over(NAME, "the Rust", &theirs, |(list, weights)| {
            fit_wcs::weighted_rms_of(list, weights)
        }),
        Row::over(NAME, "libm's root in software", &theirs, |(list, weights)| {
            fit_wcs::software::weighted_rms_of(list, weights)
        }),
        Row::over(NAME, "the hardware's root", &theirs, |(list, weights)| {
            fit_wcs::hardware::weighted_rms_of(list, weights)
        }),
    ]
}

/// The Rust takes references to pairs: they are made once, and kept.
fn pairs_of(plate: &Plate) -> Vec<&'static StarPair> {
    fit_wcs::pairs_of_rows(&plate.rows).leak().iter().collect()
}

fn their_residuals(plates: &[Plate]) -> Vec<Vec<StarResidual>> {
    plates.iter().map(|plate| fit_wcs::residuals_of(&pairs_of(plate), WCS)).collect()
}

fn errors_of(residuals: &[Vec<StarResidual>]) -> Vec<Vec<f64>> {
    residuals.iter().map(|list| list.iter().map(|residual| residual.err_px).collect()).collect()
}

/// The plate, but for its bend.
const CD: [f64; 6] = [0.5, -0.25, 3.0, 0.25, 0.5, -7.0];

/// The same as a solution: its pixel of reference is where xi and eta are 0.
const WCS: [f64; 6] = [0.8, 13.6, 0.5, -0.25, 0.25, 0.5];

fn plate(random: &mut Random) -> Plate {
    let rows: Vec<celestial_solver::Row> = (0..100)
        .map(|_| {
            let [px, py] = [(); 2].map(|()| random.between(0.0, 4096.0));
            let (x, y) = (px + px * px * 1e-7, py - px * py * 1e-7);
            (px, py, 0.5 * x - 0.25 * y + 3.0, 0.25 * x + 0.5 * y - 7.0)
        })
        .collect();
    Plate {
        lists: RowLists::of(&rows),
        rows,
        mask: vec![1; 100],
        on: vec![true; 100],
        weights: (0..100).map(|_| random.between(1.0, 100.0)).collect(),
    }
}

/// Normal equations: symmetric, with a heavy diagonal.
fn system(random: &mut Random, n: usize) -> (Vec<f64>, Vec<f64>) {
    let mut a = vec![0.0; n * n];
    for row in 0..n {
        for column in 0..=row {
            let x = random.between(-1.0, 1.0);
            (a[row * n + column], a[column * n + row]) = (x, x);
        }
        a[row * n + row] += 3.0;
    }
    (a, (0..n).map(|_| random.between(-10.0, 10.0)).collect())
}

fn lists(plate: &Plate) -> [&[f64]; 4] {
    [0, 1, 2, 3].map(|place| &*plate.lists.0[place])
}
