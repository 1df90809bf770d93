//! Star lists for the cases: figures full of ties and at the edges, and random ones.

use crate::random::Random;

/// The greatest magnitude of a position.
pub const FURTHEST: f64 = 1_048_576.0;

/// What is no position.
pub const BAD: [f64; 7] = [
    f64::NAN,
    f64::INFINITY,
    FURTHEST.next_up(),
    f64::NEG_INFINITY,
    -FURTHEST.next_up(),
    f64::MAX,
    f64::MIN,
];

/// The two lists of a call's stars. They may differ in length.
#[derive(Clone)]
pub struct Stars {
    pub xs: Vec<f64>,
    pub ys: Vec<f64>,
}

impl Stars {
    fn of(points: &[(f64, f64)]) -> Stars {
        let (xs, ys) = points.iter().copied().unzip();
        Stars { xs, ys }
    }

    pub fn square() -> Stars {
        Stars::of(&[(0.0, 0.0), (1.0, 0.0), (0.0, 1.0), (1.0, 1.0)])
    }

    /// Lists of these lengths, no two stars of which are equal.
    pub fn counted(xs: usize, ys: usize) -> Stars {
        let list = |n: usize, step: usize| (0..n).map(|i| (i * step % 101) as f64).collect();
        Stars { xs: list(xs, 37), ys: list(ys, 53) }
    }

    /// The squared length of the spine that the stars at two places would make.
    pub fn squared(&self, a: usize, b: usize) -> f64 {
        let (dx, dy) = (self.xs[b] - self.xs[a], self.ys[b] - self.ys[a]);
        dx * dx + dy * dy
    }
}

/// Lists of stars with equal distances, equal coordinates, equal stars, the shortest spines and the
/// longest, zeros of both signs; fewer than four stars too.
pub fn figures() -> Vec<Stars> {
    let lists: [&[(f64, f64)]; 26] = [
        &[(0.0, 0.0), (1.0, 0.0), (0.0, 1.0), (1.0, 1.0)],
        &[(3.0, 4.0), (0.0, 4.0), (3.0, 0.0), (0.0, 0.0)],
        &[(0.0, 1.0), (1.0, 0.0), (0.0, -1.0), (-1.0, 0.0)],
        &[(5.0, -7.0), (5.0, -7.0), (5.0, -7.0), (5.0, -7.0)],
        &[(5.0, -7.0), (5.0, -7.0), (5.0, -7.0), (4.0, 0.5)],
        &[(1.0, 2.0), (3.0, 1.0), (3.0, 1.0), (1.0, 2.0)],
        &[(2.0, 3.0), (2.0, 1.0), (2.0, 0.0), (2.0, 2.0)],
        &[(3.0, 2.0), (2.0, 2.0), (1.0, 2.0), (0.0, 2.0)],
        &[(2.0, 2.0), (0.0, 0.0), (3.0, 3.0), (1.0, 1.0), (4.0, 4.0)],
        &[(FURTHEST, FURTHEST), (-FURTHEST, -FURTHEST), (FURTHEST, -FURTHEST), (-FURTHEST, 0.0)],
        &[(0.0, -0.0), (-0.0, 0.0), (0.0, 0.0), (-0.0, -0.0)],
        &[(0.0, 1.0), (-0.0, -1.0), (1.0, 0.0), (1.0, -0.0), (-0.0, 1.0)],
        &[(0.0, 0.0), (1e-15, 0.0), (0.0, 1e-15), (5e-16, 5e-16)],
        &[(0.0, 0.0), (5e-16, 0.0), (0.0, 5e-16), (25e-17, 25e-17)],
        &[(5e-324, 0.0), (0.0, 5e-324), (0.0, 0.0), (-5e-324, 1.0)],
        &[(0.0, 0.0), (4.0, 2.0), (1.0, 1.0), (1.0, 1.0)],
        &[(0.0, 0.0), (4.0, 0.0), (2.0, 1.0), (2.0, -1.0)],
        &[(4.0, 0.0), (0.0, 0.0), (1.0, 1.0), (3.0, 1.0)],
        &[(0.1, 0.2), (0.3, 0.1), (0.7, 0.2), (0.4, 0.8), (0.3, 0.1)],
        &[
            (1.0, 0.0),
            (0.5, 0.866_025_403_784_438_6),
            (-0.5, 0.866_025_403_784_438_6),
            (-1.0, 0.0),
            (-0.5, -0.866_025_403_784_438_6),
            (0.5, -0.866_025_403_784_438_6),
        ],
        &[
            (0.0, 0.0),
            (1.0, 0.0),
            (2.0, 0.0),
            (0.0, 1.0),
            (1.0, 1.0),
            (2.0, 1.0),
            (0.0, 2.0),
            (1.0, 2.0),
        ],
        &CIRCLE,
        &[],
        &[(7.0, 7.0)],
        &[(7.0, 7.0), (7.0, 8.0)],
        &[(7.0, 7.0), (8.0, 7.0), (7.0, 8.0)],
    ];
    lists.map(Stars::of).into()
}

/// Twelve stars as far from the centre as each other, and two at the centre.
const CIRCLE: [(f64, f64); 14] = [
    (5.0, 0.0),
    (4.0, 3.0),
    (3.0, 4.0),
    (0.0, 5.0),
    (-3.0, 4.0),
    (-4.0, 3.0),
    (0.0, 0.0),
    (-5.0, 0.0),
    (-4.0, -3.0),
    (-3.0, -4.0),
    (0.0, -5.0),
    (3.0, -4.0),
    (4.0, -3.0),
    (0.0, 0.0),
];

/// Spines whose squared length is 1e-30 or a few floats away from it, along an axis and across.
pub fn least_scales() -> Vec<Stars> {
    let stepped = |x: f64, steps: i64| f64::from_bits((x.to_bits() as i64 + steps) as u64);
    let spine = |(x, y): (f64, f64)| {
        Stars::of(&[(0.0, 0.0), (x, y), (x / 3.0, y), (x, y / 7.0), (-x / 4.0, y / 2.0)])
    };
    let steps = -4..=4;
    steps.flat_map(|n| [(stepped(1e-15, n), 0.0), (stepped(6e-16, n), 8e-16)]).map(spine).collect()
}

/// A list of n stars: on a coarse grid, so that many distances are equal; beside its points by a
/// float or two; or anywhere.
pub fn random(random: &mut Random, n: usize) -> Stars {
    let style = random.below(7);
    let side = 1 + random.below(4 + n as u64 / 4);
    let step = random.one_of(&[1.0, 0.1, 0.25, 1.0 / 3.0, 7e-16, 3e-16, 30_000.0]);
    let mut coordinate = || {
        let on_grid = (random.below(side) as f64 - 1.0) * step;
        match style {
            0..3 => on_grid,
            3 => random.near(on_grid, 2),
            4 => random.between(-FURTHEST, FURTHEST),
            5 => random.between(0.0, 4096.0),
            _ => random.between(-1.0, 1.0),
        }
    };
    let points: Vec<_> = (0..n).map(|_| (coordinate(), coordinate())).collect();
    Stars::of(&points)
}

/// The same, but in one of many lists a value is no position, or a list has one too few, or both
/// have too many.
pub fn random_or_bad(random: &mut Random, n: usize) -> Stars {
    let mut stars = self::random(random, n);
    match random.below(300) {
        place @ 0..10 if n > 0 => {
            let list = if place < 5 { &mut stars.xs } else { &mut stars.ys };
            list[random.below(n as u64) as usize] = random.one_of(&BAD);
        }
        10..13 => stars.xs.truncate(n.saturating_sub(1)),
        13..16 => stars.ys.truncate(n.saturating_sub(1)),
        16 => stars = Stars::counted(101, 101),
        _ => {}
    }
    stars
}
