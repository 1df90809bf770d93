//! The CD run and the clip, against the Rust with each of its roots. Lists and outputs are made
//! beforehand; what the Rust allocates in a call is its own time.

use celestial_solver::fit_wcs;

use super::Row;
use crate::ours;
use crate::ours::run::{Draw, Ran};
use crate::random::Random;
use crate::rows::RowLists;

const LISTS: usize = 8;
const LIMIT: f64 = 3.0;

/// A hundred rows of a plate, 80 of them good, each with its votes and weight.
#[derive(Clone)]
struct Plate {
    lists: RowLists,
    rows: Vec<celestial_solver::Row>,
    votes: Vec<u32>,
    usizes: Vec<usize>,
    weights: Vec<f64>,
}

pub fn rows(random: &mut Random) -> Vec<Row> {
    let plates: Vec<Plate> = (0..LISTS).map(|_| plate(random)).collect();
    vec![
        Row::over("run of 100, 1,000 trials", "Moorspindle", &plates, |plate| {
            let draw = Draw { votes: &plate.votes, limit: LIMIT, trials: 1000 };
            let (mut mask, mut ran) = ([0; 100], Ran { tested: 0, on: 0 });
            ours::run::ransac_fit(lists(plate), draw, &mut mask, &mut ran);
            mask
        })
        .of("ransac_fit"),
        Row::over("run of 100, 1,000 trials", "the Rust", &plates, |plate| {
            fit_wcs::ransac_fit(&plate.rows, &plate.usizes, LIMIT)
        }),
        Row::over("run of 100, 1,000 trials", "libm's root in software", &plates, |plate| {
            fit_wcs::software::ransac_fit(&plate.rows, &plate.usizes, LIMIT)
        }),
        Row::over("run of 100, 1,000 trials", "the hardware's root", &plates, |plate| {
            fit_wcs::hardware::ransac_fit(&plate.rows, &plate.usizes, LIMIT)
        }),
        Row::over("clip of 100", "Moorspindle", &plates, |plate| {
            let (mut mask, mut cd) = ([1; 100], CD);
            ours::run::sigma_clip_loop_weighted(lists(plate), &mut mask, &mut cd, &plate.weights);
            (mask, cd)
        })
        .of("sigma_clip_loop_weighted"),
        Row::over("clip of 100", "the Rust", &plates, |plate| {
            let (mut mask, mut cd) = ([true; 100], CD);
            let _ =
                fit_wcs::sigma_clip_loop_weighted(&plate.rows, &mut mask, &mut cd, &plate.weights);
            (mask, cd)
        }),
        Row::over("clip of 100", "libm's root in software", &plates, |plate| {
            let mut mask = [true; 100];
            fit_wcs::software::sigma_clip_loop_weighted(&plate.rows, &mut mask, CD, &plate.weights)
        }),
        Row::over("clip of 100", "the hardware's root", &plates, |plate| {
            let mut mask = [true; 100];
            fit_wcs::hardware::sigma_clip_loop_weighted(&plate.rows, &mut mask, CD, &plate.weights)
        }),
    ]
}

/// The plate of the good rows.
const CD: [f64; 6] = [0.5, -0.25, 3.0, 0.25, 0.5, -7.0];

fn plate(random: &mut Random) -> Plate {
    let rows: Vec<celestial_solver::Row> = (0..100)
        .map(|place| {
            let [px, py] = [(); 2].map(|()| random.between(0.0, 4096.0));
            let off = if place % 5 == 0 { 300.0 } else { 0.5 };
            let [x, y] = [px, py].map(|p| p + random.between(-off, off));
            (px, py, 0.5 * x - 0.25 * y + 3.0, 0.25 * x + 0.5 * y - 7.0)
        })
        .collect();
    let votes: Vec<u32> = (0..100).map(|_| 4 + random.below(8) as u32).collect();
    Plate {
        lists: RowLists::of(&rows),
        rows,
        usizes: votes.iter().map(|&v| v as usize).collect(),
        votes,
        weights: (0..100).map(|_| random.between(1.0, 100.0)).collect(),
    }
}

fn lists(plate: &Plate) -> [&[f64]; 4] {
    [0, 1, 2, 3].map(|place| &*plate.lists.0[place])
}
