//! The SIP fit.
//!
//! A lent output starts filled with a pattern, and an answer holds it whole, so that a place that
//! was not to be written shows when it was.

use celestial_solver::fit_wcs;

use super::{Call, Group};
use crate::case::{Answer, Case, Kind, bits};
use crate::ours::matching::Rows;
use crate::ours::sip::Lent;
use crate::random::Random;
use crate::rows::{self, RowLists};
use crate::theirs::sip::{Fitted, fit_sip_by, terms};
use crate::{bench, edges, ours, theirs};

pub const GROUP: Group = Group {
    name: "sip",
    title: "The SIP fit",
    calls: &[FIT_SIP],
    also: &[REJECTING],
    notes: |random| (2..=5).map(|order| distance_of_untouched(random, order)).collect(),
    bench: bench::sip::rows,
    tables: |_| Vec::new(),
};

/// What a lent output holds before the call.
const WORD: u64 = 0xa5a5_a5a5_a5a5_a5a5;
const FLOAT: f64 = f64::from_bits(WORD);

const FURTHEST: f64 = 1_048_576.0;

/// The WCS that changes nothing.
const UNIT: [f64; 6] = [0.0, 0.0, 1.0, 0.0, 0.0, 1.0];

// ---- fields

/// What a fit reads, but for its order.
#[derive(Clone)]
pub struct Field {
    pub rows: RowLists,
    pub snr: Vec<f64>,
    pub wcs: Vec<f64>,
}

impl Field {
    fn of(rows: &[rows::Row], wcs: [f64; 6]) -> Field {
        Field { rows: RowLists::of(rows), snr: vec![1.0; rows.len()], wcs: wcs.to_vec() }
    }

    pub fn lists(&self) -> Rows<'_> {
        [0, 1, 2, 3].map(|place| &*self.rows.0[place])
    }

    fn case(&self, order: u32, rooms: [usize; 3]) -> Case {
        let lists = self.rows.fields().floats(&self.snr).floats(&self.wcs);
        lists.number(order).numbers(&rooms.map(|room| room as u64))
    }

    /// With as much room as an order takes, and a place more in a.
    fn fitting(&self, order: u32) -> Case {
        let n = terms(order.min(9));
        self.case(order, [n + 1, n, 3])
    }
}

/// A camera's field: n stars of an image of 4,096 pixels, bent by a polynomial, with noise; each of
/// `off` of them is further off than the last by a factor.
pub fn camera(random: &mut Random, n: usize, noise: f64, off: usize, factor: f64) -> Field {
    let scale = random.between(1e-5, 1e-3);
    let (sin, cos) = random.between(0.0, 6.0).sin_cos();
    let wcs = [2048.0, 2048.0, scale * cos, -scale * sin, scale * sin, scale * cos];
    let bend = [(); 6].map(|()| random.between(-1e-6, 1e-6));
    let mut far = random.between(0.5, 3.0);
    let mut row = |random: &mut Random, place: usize| {
        let [px, py] = [(); 2].map(|()| random.between(0.0, 4096.0));
        let (u, v) = (px - wcs[0], py - wcs[1]);
        let square = u * u + v * v;
        let mut x = u - bend[0] * u * u - bend[1] * u * v - bend[2] * square * u / 4096.0;
        let mut y = v - bend[3] * v * v - bend[4] * u * v - bend[5] * square * v / 4096.0;
        x += random.between(-noise, noise);
        y += random.between(-noise, noise);
        if place < off {
            x += random.signed(far);
            y += random.signed(far);
            far = (far * factor).min(1e5);
        }
        (px, py, wcs[2] * x + wcs[3] * y, wcs[4] * x + wcs[5] * y)
    };
    let rows: Vec<rows::Row> = (0..n).map(|place| row(random, place)).collect();
    let mut field = Field::of(&rows, wcs);
    field.snr = (0..n).map(|_| random.between(3.0, 300.0)).collect();
    field
}

/// Small whole numbers, whose sums are exact; often degenerate.
fn whole(random: &mut Random, n: usize) -> Field {
    let side = 2 + random.below(9);
    let number = |random: &mut Random| random.below(side) as f64 - (side / 2) as f64;
    let rows: Vec<rows::Row> = (0..n)
        .map(|_| {
            let [u, v, x, y] = [(); 4].map(|()| number(random));
            match random.below(4) {
                0 => (u, v, x, y),
                _ => (u, v, u - 0.5 * u * u, v + 0.25 * u * v),
            }
        })
        .collect();
    let mut field = Field::of(&rows, UNIT);
    field.wcs[0] = random.one_of(&[0.0, 0.0, 1.0, -0.0]);
    field.snr = (0..n).map(|_| random.one_of(&[1.0, 1.0, 2.0, 0.0])).collect();
    field
}

/// Rows near a line, or of one point, or far away: pivots near nothing and powers that overflow the
/// digits of a float.
fn ill(random: &mut Random, n: usize) -> Field {
    let style = random.below(5);
    let spread = random.one_of(&[0.0, 1e-12, 1e-6, 1e-3]);
    let rows: Vec<rows::Row> = (0..n)
        .map(|_| {
            let t = random.between(-100.0, 100.0);
            let [a, b] = [(); 2].map(|()| random.between(-1.0, 1.0) * spread);
            match style {
                0 => (t + a, 2.0 * t + b, t, 2.0 * t),
                1 => (3.0 + a, 4.0 + b, a, b),
                2 => (t * 1e4, b * 1e6, t * 1e4, a),
                3 => (t * 1e-60, a * 1e-50, 0.0, b * 1e-70),
                _ => (FURTHEST - t.abs(), a - FURTHEST / 2.0, -FURTHEST, FURTHEST + b.min(0.0)),
            }
        })
        .collect();
    let mut field = Field::of(&rows, UNIT);
    for x in field.rows.0.iter_mut().flatten() {
        *x = x.clamp(-FURTHEST, FURTHEST);
    }
    field.snr = (0..n).map(|_| random.one_of(&[1.0, 1e-3, 1e-150, 1e5, 0.0])).collect();
    field
}

/// CDs that are finite, and whose determinant is infinite, NaN, around 1e-30, or made of anything.
fn extreme(random: &mut Random) -> [f64; 4] {
    let least = random.near(1e-30, 2);
    match random.below(6) {
        0 => [1e200, 0.0, 0.0, 1e200],
        1 => [1e200, 1e200, 1e200, -1e200],
        2 => [1e300, 1e300, 1e300, 1e300],
        3 => [least, 0.0, -0.0, 1.0],
        4 => [1e-160, 0.0, 0.0, 1e-160],
        _ => [(); 4].map(|()| {
            let power = random.below(2046) as i32 - 1022;
            random.signed(2f64.powi(power))
        }),
    }
}

const BAD_SNR: [f64; 5] = [f64::NAN, -5e-324, f64::INFINITY, 1_048_577.0, -1.0];

/// A case that is refused, or nearly so, by one thing in it.
fn spoilt(random: &mut Random, field: &mut Field, order: &mut u32, rooms: &mut [usize; 3]) {
    let n = field.rows.count();
    match random.below(12) {
        0 => field.rows = rows::random_or_bad(random, n),
        1 => drop(field.snr.pop()),
        2 => field.snr[random.below(n as u64) as usize] = random.one_of(&BAD_SNR),
        3 => field.wcs[random.below(6) as usize] = random.one_of(&[f64::NAN, f64::INFINITY, 2e6]),
        4 => drop(field.wcs.pop()),
        5 => *order = random.one_of(&[0, 1, 6, 9, u32::MAX]),
        6 | 7 => {
            let room = &mut rooms[random.below(3) as usize];
            *room = random.below(*room as u64) as usize;
        }
        8 => field.snr = vec![0.0; n],
        9 => field.snr = vec![FURTHEST; n],
        _ => field.wcs[2..].copy_from_slice(&extreme(random)),
    }
}

// ---- fit_sip

const FIT_SIP: Call = Call {
    name: "fit_sip",
    takes: &[
        Kind::Floats, // px, py, xi, eta
        Kind::Floats,
        Kind::Floats,
        Kind::Floats,
        Kind::Floats,  // the snr
        Kind::Floats,  // the WCS
        Kind::Number,  // the order
        Kind::Numbers, // the lengths of a, b and the sums
    ],
    edges: edge_cases,
    random: |random| {
        let mut order = 2 + random.below(4) as u32;
        let least = terms(order).max(6) as u64;
        let any = least + random.below(101 - least);
        let n = random.one_of(&[least, least + 1, any, any, 100]) as usize;
        let mut field = match random.below(6) {
            0 => whole(random, n),
            1 => ill(random, n),
            2 => camera(random, n, 0.0, 0, 1.0),
            3 => camera(random, n, 0.2, n / 10, 1.0),
            4 => camera(random, n, 0.2, n / 5, 5.0),
            _ => camera(random, n, 0.5, 0, 1.0),
        };
        if random.below(6) == 0 {
            let place = random.below(n as u64) as usize;
            field.snr[place] = random.one_of(&[0.0, -0.0, 1e-160, FURTHEST]);
        }
        let mut rooms = [terms(order) + random.below(3) as usize, terms(order), 3];
        if random.below(5) == 0 {
            spoilt(random, &mut field, &mut order, &mut rooms);
        }
        field.case(order, rooms)
    },
    count: 20_000,
    theirs: |case| fit(case, fit_wcs::fit_sip_in_order),
    ours: ours_fit,
};

/// Fields whose errors fall by a factor from row to row: most turn rows off ten times over.
const REJECTING: Call = Call {
    name: "fit_sip, ten rounds",
    edges: |_| Vec::new(),
    random: |random| {
        let order = 2 + random.below(4) as u32;
        let (n, factor) = (90 + random.below(11) as usize, random.between(4.0, 9.0));
        camera(random, n, 1e-6, 20, factor).fitting(order)
    },
    count: 2_000,
    ..FIT_SIP
};

/// The field of the scope's record: six rows, and a_2_0 is 0.5.
fn bent() -> Field {
    let row = |u: f64, v: f64| (u, v, u - 0.5 * u * u, v);
    let rows = [(1.0, 0.0), (-1.0, 0.0), (1.0, 1.0), (-1.0, 1.0), (1.0, -1.0), (-1.0, -1.0)];
    Field::of(&rows.map(|(u, v)| row(u, v)), UNIT)
}

fn edge_cases(every: usize) -> Vec<Case> {
    let mut cases = vec![bent().fitting(2)];
    let mut random = Random::new(1, "edges of fit_sip");
    for order in [0, 1, 2, 3, 4, 5, 6, u32::MAX] {
        for n in [0, 5, 6, 7, 11, 12, 17, 18, 19, 100] {
            cases.push(camera(&mut random, n, 0.1, n / 9, 3.0).fitting(order));
        }
    }
    // refusals beside each other: which comes first
    let flat = Field { wcs: vec![0.0, 0.0, 1.0, 1.0, 1.0, 1.0], ..bent() };
    for field in [bent(), flat] {
        for order in [2, 3, 6] {
            for rooms in [[0; 3], [3, 3, 3], [2, 3, 3], [3, 2, 3], [3, 3, 2], [5, 4, 7]] {
                cases.push(field.case(order, rooms));
            }
        }
        for snr in [vec![], vec![1.0; 5], vec![1.0; 101], vec![0.0; 6], vec![-0.0; 6]] {
            cases.push(Field { snr, ..field.clone() }.fitting(2));
        }
        for bad in BAD_SNR {
            cases.push(
                Field { snr: vec![1.0, 1.0, 1.0, 1.0, 1.0, bad], ..field.clone() }.fitting(3),
            );
        }
        for wcs in [vec![], vec![1.0; 5], vec![1.0; 7]] {
            cases.push(Field { wcs: wcs.clone(), ..field.clone() }.fitting(2));
            cases.push(Field { wcs, snr: vec![1.0; 101], ..field.clone() }.fitting(2));
        }
    }
    for place in 0..6 {
        for bad in [f64::NAN, f64::INFINITY, f64::NEG_INFINITY, FURTHEST.next_up(), FURTHEST] {
            let mut field = bent();
            field.wcs[place] = bad;
            cases.push(field.fitting(2));
        }
    }
    // determinants around 1e-30, and pivots there: the sum of squares of u^2
    for least in edges::around(1e-30) {
        cases.push(Field { wcs: vec![0.0, 0.0, least, 0.0, 0.0, 1.0], ..bent() }.fitting(2));
        cases.push(Field { snr: vec![(least / 6.0).sqrt(); 6], ..bent() }.fitting(2));
    }
    // coefficients around 1e-20: the points are those of a pixel that is a little off
    for least in edges::around(1e-20).into_iter().chain([1e-19, 0.9e-20, 1.1e-20]) {
        let mut field = bent();
        field.rows.0[2] = field.rows.0[0].iter().map(|u| u - least * u * u).collect();
        field.wcs[2] = 1e-9;
        for x in &mut field.rows.0[2] {
            *x *= 1e-9;
        }
        cases.push(field.fitting(2));
        let tiny = |x: &f64| x * 2f64.powi(-20);
        let mut small = bent();
        small.rows.0 = small.rows.0.map(|list| list.iter().map(tiny).collect());
        small.rows.0[2] = small.rows.0[0].iter().map(|u| u - least * u * u).collect();
        cases.push(small.fitting(2));
    }
    let refused = rows::refused();
    let refused = refused.iter().step_by(every.div_ceil(5));
    cases.extend(refused.map(|rows| {
        let snr = vec![1.0; rows.count()];
        Field { rows: rows.clone(), snr, wcs: UNIT.to_vec() }.fitting(2)
    }));
    cases
}

fn rows_at(case: &Case) -> Rows<'_> {
    [0, 1, 2, 3].map(|place| case.floats_at(place))
}

fn lent(case: &Case) -> Lent {
    let rooms = case.numbers_at::<usize>(7);
    let [a, b, sums] = [0, 1, 2].map(|place| vec![FLOAT; rooms[place]]);
    Lent { a, b, rows_used: WORD, sums }
}

fn told(number: u32, lent: &Lent) -> Answer {
    let answer = Answer::new().number(number).floats(&lent.a).floats(&lent.b);
    answer.number(lent.rows_used).floats(&lent.sums)
}

fn fit(case: &Case, by: Fitted) -> Answer {
    let mut lent = lent(case);
    let order = case.number_at(6);
    let number =
        fit_sip_by(by, rows_at(case), case.floats_at(4), case.floats_at(5), order, &mut lent);
    told(number, &lent)
}

fn ours_fit(case: &Case) -> Answer {
    let mut lent = lent(case);
    let order = case.number_at(6);
    let number =
        ours::sip::fit_sip(rows_at(case), case.floats_at(4), case.floats_at(5), order, &mut lent);
    told(number, &lent)
}

// ---- the untouched Rust

const FIELDS: usize = 500;

/// How far the untouched Rust, with libm's powers and a hash map's order, is away on cameras' fields.
fn distance_of_untouched(random: &mut Random, order: u32) -> String {
    let (mut same, mut other, mut greatest, mut rms) = (0, 0, 0f64, 0f64);
    for _ in 0..FIELDS {
        let n = random.one_of(&[30, 60, 100]);
        let field = camera(random, n, 0.2, n / 20, 2.0);
        let room = terms(order);
        let empty =
            || Lent { a: vec![0.0; room], b: vec![0.0; room], rows_used: 0, sums: vec![0.0; 3] };
        let (mut untouched, mut own) = (empty(), empty());
        let (lists, snr, wcs) = (field.lists(), &field.snr, &field.wcs);
        let by = fit_wcs::fit_sip;
        let theirs = theirs::sip::fit_sip_by(by, lists, snr, wcs, order, &mut untouched);
        let ours = ours::sip::fit_sip(lists, snr, wcs, order, &mut own);
        if theirs != ours || untouched.rows_used != own.rows_used {
            other += 1;
            continue;
        }
        let pairs = || {
            let mine = own.a.iter().chain(&own.b);
            untouched.a.iter().chain(&untouched.b).zip(mine)
        };
        same += usize::from(pairs().all(|(x, y)| bits(*x) == bits(*y)));
        let apart = |(x, y): (&f64, &f64)| (x - y).abs() / x.abs().max(y.abs()).max(1e-300);
        greatest = pairs().map(apart).fold(greatest, f64::max);
        rms = rms.max((untouched.sums[1] - own.sums[1]).abs());
    }
    format!(
        "fit_sip of order {order}: the untouched Rust has the same coefficients in {same} of {FIELDS} \
         fields, other rows in {other}; they are at most {greatest:.1e} of their size apart, the rms \
         {rms:.1e} pixels"
    )
}
