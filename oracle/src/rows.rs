//! Rows for the cases: four lists px, py, xi, eta, at the edges and at random.

use crate::case::Case;
use crate::random::Random;

/// What is no position.
pub use crate::stars::BAD;
use crate::stars::FURTHEST;

pub type Row = (f64, f64, f64, f64);

/// The four lists. They may differ in length.
#[derive(Clone)]
pub struct RowLists(pub [Vec<f64>; 4]);

impl RowLists {
    pub fn of(rows: &[Row]) -> RowLists {
        let mut lists = [const { Vec::new() }; 4];
        for &(px, py, xi, eta) in rows {
            for (list, x) in lists.iter_mut().zip([px, py, xi, eta]) {
                list.push(x);
            }
        }
        RowLists(lists)
    }

    pub fn count(&self) -> usize {
        self.0[0].len()
    }

    /// The first four fields of a case.
    pub fn fields(&self) -> Case {
        self.0.iter().fold(Case::new(), |case, list| case.floats(list))
    }
}

/// A plate whose pixels are turned, scaled and moved.
fn plate(px: f64, py: f64) -> Row {
    (px, py, 0.5 * px - 0.25 * py + 3.0, 0.25 * px + 0.5 * py - 7.0)
}

/// None, one, two and three rows; equal and collinear ones, equal in x alone, zeros of both signs,
/// the furthest; a plate with a row that is off by the limit of 10 pixels.
pub fn figures() -> Vec<RowLists> {
    let far = FURTHEST;
    let mut lists: Vec<Vec<Row>> = vec![
        vec![],
        vec![plate(1.0, 2.0)],
        vec![plate(1.0, 2.0), plate(3.0, 5.0)],
        vec![plate(0.0, 0.0), plate(1.0, 0.0), plate(0.0, 1.0)],
        vec![(0.0, 0.0, 0.0, 0.0), (1.0, 0.0, 1.0, 0.0), (0.0, 1.0, 0.0, 1.0)],
        vec![plate(2.0, 2.0); 3],
        vec![plate(2.0, 2.0), plate(2.0, 2.0), plate(5.0, 1.0), plate(0.5, 9.0)],
        (0..6).map(|i| plate(f64::from(i), 2.0 * f64::from(i))).collect(),
        (0..6).map(|i| plate(0.1 * f64::from(i), 0.3 * f64::from(i))).collect(),
        (0..6).map(|i| plate(4.0, f64::from(5 - i))).collect(),
        (0..6).map(|i| plate(f64::from(5 - i), 4.0)).collect(),
        vec![(0.0, -0.0, -0.0, 0.0), (-0.0, 0.0, 0.0, -0.0), (0.0, 0.0, 1.0, -0.0)],
        vec![(far, far, -far, far), (-far, far, far, far), (far, -far, far, -far)],
        vec![(far, 0.0, 0.0, far), (0.0, far, -far, 0.0), (5e-324, 1e-300, 0.0, 0.0)],
    ];
    let square = [(0.0, 0.0), (100.0, 0.0), (0.0, 100.0), (100.0, 100.0)];
    for off in [10.0, 10.0f64.next_down(), 10.0f64.next_up(), 6.0] {
        // the pixels are those of the plane, so that the error is the offset itself
        let mut rows: Vec<Row> = square.iter().map(|&(x, y)| (x, y, x, y)).collect();
        rows.push((50.0, 50.0, 50.0 + off, 50.0));
        rows.push((20.0, 30.0, 20.0, 30.0 - off));
        rows.push((70.0, 40.0, 76.0, 48.0));
        lists.push(rows);
    }
    // equal in x, and equal altogether but for the plane: their order decides what is drawn
    let ties = (0..8).map(|i| (f64::from(i % 2), f64::from(i % 4), f64::from(i), f64::from(i * i)));
    lists.push(ties.collect());
    lists.push((0..7).map(|i| (3.0, 4.0, f64::from(i * 5 % 7), f64::from(i))).collect());
    lists.iter().map(|rows| RowLists::of(rows)).collect()
}

/// Rows that are refused: too many, uneven, with a value that is no position.
pub fn refused() -> Vec<RowLists> {
    let good = RowLists::of(&[plate(0.0, 0.0), plate(1.0, 0.0), plate(0.0, 1.0)]);
    let many = RowLists::of(&(0..101).map(|i| plate(f64::from(i), 0.5)).collect::<Vec<_>>());
    let mut lists = vec![many.clone()];
    for place in 0..4 {
        let mut long = good.clone();
        long.0[place].clone_from(&many.0[place]);
        let mut short = good.clone();
        short.0[place].pop();
        let mut both = short.clone();
        both.0[(place + 1) % 4][0] = f64::NAN;
        lists.extend([long, short, both]);
        for bad in BAD {
            let mut lists_of_bad = good.clone();
            lists_of_bad.0[place][2] = bad;
            lists.push(lists_of_bad);
        }
    }
    lists
}

/// n rows: of a plate with some that are off, on a coarse grid, or anywhere.
pub fn random(random: &mut Random, n: usize) -> RowLists {
    let style = random.below(6);
    let side = 1 + random.below(3 + n as u64 / 3);
    let noise = random.one_of(&[0.0, 0.1, 3.0, 10.0, 30.0]);
    let scale = random.one_of(&[1.0, 0.5, 1e-3]);
    let row = |random: &mut Random| {
        let grid = |random: &mut Random| random.below(side) as f64 - 1.0;
        let [px, py] = [(); 2].map(|()| match style {
            0 | 1 => grid(random),
            2 => random.between(-FURTHEST, FURTHEST),
            _ => random.between(0.0, 4096.0),
        });
        let off = if random.below(3) == 0 { noise } else { noise / 100.0 };
        let [u, v] = [(); 2].map(|()| random.between(-1.0, 1.0) * off);
        let (_, _, xi, eta) = plate(px + u, py + v);
        match style {
            0 => (px, py, grid(random), grid(random)),
            5 => (px, py, px + u.round(), py + v.round()),
            _ => (px, py, scale * xi, scale * eta),
        }
    };
    let rows: Vec<Row> = (0..n).map(|_| row(random)).collect();
    let mut lists = RowLists::of(&rows);
    for x in lists.0.iter_mut().flatten() {
        *x = x.clamp(-FURTHEST, FURTHEST);
    }
    lists
}

/// The same, but in one of many lists a value is no position, or a list has one too few, or there
/// are too many rows.
pub fn random_or_bad(random: &mut Random, n: usize) -> RowLists {
    let mut rows = self::random(random, n);
    match random.below(300) {
        place @ 0..8 if n > 0 => {
            let list = &mut rows.0[place as usize / 2];
            list[random.below(n as u64) as usize] = random.one_of(&BAD);
        }
        place @ 8..12 => drop(rows.0[place as usize - 8].pop()),
        12 => rows = self::random(random, 101),
        _ => {}
    }
    rows
}
