//! The float helpers. The Rust takes floor from f64, magnitude and root from libm; a power is the
//! repeated product that stands for its pow.

use super::{Call, Group};
use crate::bench;
use crate::case::{Answer, Case, Kind};
use crate::random::Random;
use crate::{edges, ours};

pub const GROUP: Group = Group {
    name: "floats",
    title: "The float helpers",
    calls: &[MAGNITUDE, FLOOR, ROOT, POWER],
    also: &[HARDWARE, SUBNORMAL, SOFTWARE],
    notes: |random| vec![distance_of_pow(random)],
    bench: bench::floats::rows,
    tables: |_| Vec::new(),
};

const MAGNITUDE: Call = Call {
    name: "magnitude",
    takes: &[Kind::Float],
    edges: |every| {
        let powers = edges::powers_of_two(every).flat_map(|x| [x, -x]);
        cases(edges::specials().into_iter().chain(powers))
    },
    random: |random| Case::new().float(random.pattern()),
    count: 1_000_000,
    theirs: |case| Answer::new().float(libm::fabs(case.float_at(0))),
    ours: |case| Answer::new().float(ours::magnitude(case.float_at(0))),
};

const FLOOR: Call = Call {
    name: "floor",
    takes: &[Kind::Float],
    edges: |every| {
        let powers = edges::powers_of_two(every).flat_map(|x| [x, -x]);
        let near_whole = edges::steps(every).chain(edges::lanes(every));
        cases(edges::specials().into_iter().chain(near_whole).chain(powers))
    },
    random: |random| {
        let whole = random.between(-2.2e9, 2.2e9).round();
        let x = match random.below(5) {
            0 => random.pattern(),
            1 => random.between(-2.2e9, 2.2e9),
            2 => random.between(-700.0, 700.0),
            3 => random.between(-7.0, 7.0) * 100.0,
            _ => random.near(whole, 3),
        };
        Case::new().float(x)
    },
    count: 1_000_000,
    theirs: |case| Answer::new().number(case.float_at(0).floor() as i32),
    ours: |case| Answer::new().number(ours::floor(case.float_at(0))),
};

const ROOT: Call = Call {
    name: "root",
    takes: &[Kind::Float],
    edges: |every| {
        let powers = edges::powers_of_two(every);
        let negative = edges::powers_of_two(every.max(50)).map(|x| -x);
        let positive = edges::squares(every).chain(powers);
        cases(edges::specials().into_iter().chain(positive).chain(negative))
    },
    random: |random| {
        let exact = random.between(0.0, 94_906_265.0).round().powi(2);
        let x = match random.below(5) {
            0 => random.pattern(),
            1 => random.pattern().abs(),
            2 => random.subnormal().abs(),
            3 => random.between(0.0, 1_048_576.0),
            _ => random.near(exact, 2),
        };
        Case::new().float(x)
    },
    count: 1_000_000,
    theirs: |case| Answer::new().float(libm::sqrt(case.float_at(0))),
    ours: |case| Answer::new().float(ours::root(case.float_at(0))),
};

const POWER: Call = Call {
    name: "power",
    takes: &[Kind::Float, Kind::Number],
    edges: |_| {
        let exponents = || (0..=12).chain([40]);
        let with = |u: f64| exponents().map(move |p| Case::new().float(u).number(p));
        edges::specials().into_iter().chain(BASES).flat_map(with).collect()
    },
    random: |random| {
        let u = match random.below(4) {
            0 => random.pattern(),
            1 => random.between(-2.0, 2.0),
            2 => random.between(-1_048_576.0, 1_048_576.0),
            _ => random.near(1.0, 100),
        };
        Case::new().float(u).number(random.below(13))
    },
    count: 1_000_000,
    theirs: |case| Answer::new().float(product(case.float_at(0), case.number_at(1))),
    ours: |case| {
        let (u, p) = (case.float_at(0), case.number_at(1));
        Answer::new().float(ours::power(u, p))
    },
};

/// Bases of many sizes, beside the special ones: some overflow, some fade into the subnormals.
const BASES: [f64; 20] = [
    2.0, -2.0, 0.5, 3.0, 10.0, 0.1, -0.1, 1.5, 1e10, 1e-10, 1e25, 1e-25, 1e100, 1e-100, 1e-160,
    1048576.0, -1048576.0, -123.456, 1e308, 1e-308,
];

/// The root as IEEE 754 has it. On x86-64 libm takes the same instruction, on Arm it does not.
const HARDWARE: Call = Call {
    name: "root: hardware, any bits",
    edges: |_| Vec::new(),
    random: |random| Case::new().float(random.pattern()),
    count: 10_000_000,
    theirs: |case| Answer::new().float(case.float_at(0).sqrt()),
    ..ROOT
};

const SUBNORMAL: Call = Call {
    name: "root: hardware, subnormals",
    random: |random| Case::new().float(random.subnormal().abs()),
    count: 1_000_000,
    ..HARDWARE
};

/// libm's root where it does not take the hardware's.
const SOFTWARE: Call = Call {
    name: "root: libm's in software",
    theirs: |case| Answer::new().float(libm_software::sqrt(case.float_at(0))),
    ..ROOT
};

fn cases(inputs: impl Iterator<Item = f64>) -> Vec<Case> {
    inputs.map(|x| Case::new().float(x)).collect()
}

/// u^0 is 1, u^(p+1) is u^p times u.
fn product(u: f64, p: u32) -> f64 {
    (0..p).fold(1.0, |r, _| r * u)
}

/// How far the pow that the Rust calls is from the repeated product.
fn distance_of_pow(random: &mut Random) -> String {
    let mut furthest = [0; 13];
    for _ in 0..POWER.count {
        let case = (POWER.random)(random);
        let (u, p): (f64, u32) = (case.float_at(0), case.number_at(1));
        if !u.is_nan() {
            let away = apart(libm::pow(u, f64::from(p)), product(u, p));
            furthest[p as usize] = away.max(furthest[p as usize]);
        }
    }
    let listed = furthest.map(|away| away.to_string()).join(" ");
    format!("power: libm::pow is at most {listed} floats away, for p = 0 to 12 (no verdict)")
}

/// How many floats lie from x to y. Neither is NaN.
fn apart(x: f64, y: f64) -> u64 {
    let place = |x: f64| {
        let magnitude = (x.to_bits() & !(1 << 63)) as i64;
        if x.is_sign_negative() { -magnitude } else { magnitude }
    };
    place(x).abs_diff(place(y))
}
