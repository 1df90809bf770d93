//! From quads to pairs, against the Rust. The lists and outputs are made beforehand; what the Rust
//! allocates in a call is its own time.

use std::cell::RefCell;
use std::hint::black_box;

use celestial_catalog::query;
use celestial_solver::detect::DetectedStar;
use celestial_solver::match_field;

use super::{Row, index};
use crate::ours::matching::{Pairs, Quads, Voters};
use crate::random::Random;
use crate::rows::{self, RowLists};
use crate::{ours, theirs};

const ROWS: usize = 16;

/// The places and the hashes of a list of quads.
pub type Lists = (Vec<u8>, Vec<f64>);

/// A frame: the quads of a hundred stars, those of the same stars a little off, turned and scaled,
/// and the matches of the two.
#[derive(Clone)]
struct Frame {
    image: Lists,
    catalogue: Lists,
    matches: Vec<u8>,
    numbers: Vec<f64>,
    ids: Vec<u32>,
    names: Vec<i64>,
}

pub fn rows(random: &mut Random) -> Vec<Row> {
    let frame = [frame(random)];
    let quads = frame[0].image.0.len() / 4;
    let others = frame[0].catalogue.0.len() / 4;
    let found = frame[0].matches.len() / 8;
    eprintln!("matching: {quads} x {others} quads, {found} matches");
    let scattered: Vec<RowLists> = (0..ROWS).map(|_| plate(random)).collect();
    let tuples: Vec<Vec<celestial_solver::Row>> = scattered.iter().map(tuples_of).collect();
    let output = RefCell::new(vec![0; 8 * 1_000_000]);
    let pairs = RefCell::new(room());
    let indexed = index::rows(&frame[0].image, &frame[0].catalogue);
    let mut rows = vec![
        Row::over("matches of 7,300 x 7,300", "Moorspindle", &frame, move |frame| {
            let mut found = 0;
            let image = quads_of(&frame.image);
            ours::matching::find_matches(
                image,
                quads_of(&frame.catalogue),
                &mut output.borrow_mut(),
                &mut found,
            );
            found
        })
        .of("find_matches"),
        {
            let [image, catalogue] = [&frame[0].image, &frame[0].catalogue]
                .map(|lists| theirs::matching::quads_of(quads_of(lists)));
            Row::over("matches of 7,300 x 7,300", "the Rust", &[()], move |_| {
                let index = match_field::build_hash_index(&catalogue);
                match_field::find_matches(&image, &catalogue, &index)
            })
        },
    ];
    rows.extend(indexed);
    rows.extend([
        Row::over("pairs of their votes", "Moorspindle", &frame, move |frame| {
            let mut count = 0;
            let mut pairs = pairs.borrow_mut();
            ours::matching::extract_pairs(&frame.matches, voters(frame), &mut pairs, &mut count);
            black_box(&*pairs);
            count
        })
        .of("extract_pairs"),
        {
            let matches = theirs::matching::matches_of(&frame[0].matches);
            let (image, catalogue, results) = theirs::matching::voters_of(voters(&frame[0]));
            let star = |&x: &f64| DetectedStar { x, y: x, snr: x };
            let detected: Vec<DetectedStar> = frame[0].numbers.iter().map(star).collect();
            Row::over("pairs of their votes", "the Rust", &[()], move |_| {
                match_field::extract_pairs(&matches, &detected, &image, &catalogue, &results)
            })
        },
        Row::over("affine of 3 of 100", "Moorspindle", &scattered, |rows| {
            let mut affine = [0.0; 6];
            ours::matching::fit_affine_3pt(lists(rows), [3, 50, 97], &mut affine);
            affine
        })
        .of("fit_affine_3pt"),
        Row::over("affine of 3 of 100", "the Rust", &tuples, |rows| {
            match_field::fit_affine_3pt(rows, 3, 50, 97)
        }),
        Row::over("inliers of 100", "Moorspindle", &scattered, |rows| {
            let mut inliers = 0;
            ours::matching::count_affine_inliers(lists(rows), &AFFINE, 10.0, &mut inliers);
            inliers
        })
        .of("count_affine_inliers"),
        Row::over("inliers of 100", "the Rust", &tuples, |rows| {
            match_field::count_affine_inliers(rows, &AFFINE, 10.0)
        }),
        Row::over("verify_pairs of 100", "Moorspindle", &scattered, |rows| {
            let mut score = 0;
            ours::matching::verify_pairs(lists(rows), &mut score);
            score
        })
        .of("verify_pairs"),
        Row::over("verify_pairs of 100", "the Rust", &tuples, |rows| {
            match_field::verify_pairs(rows)
        }),
    ]);
    rows
}

/// The plate of `rows::random`.
const AFFINE: [f64; 6] = [0.5, -0.25, 3.0, 0.25, 0.5, -7.0];

fn frame(random: &mut Random) -> Frame {
    let [image, catalogue] = same_field(random);
    let mut matches = vec![0; 8 * 1_000_000];
    let mut found = 0;
    theirs::matching::find_matches(
        quads_of(&image),
        quads_of(&catalogue),
        &mut matches,
        &mut found,
    );
    matches.truncate(8 * found as usize);
    Frame {
        image,
        catalogue,
        matches,
        numbers: (0..100).map(f64::from).collect(),
        ids: (0..100).collect(),
        names: (0..100).map(|id| id * 1_000_003).collect(),
    }
}

fn points(random: &mut Random) -> Vec<(f64, f64)> {
    (0..100).map(|_| (random.between(0.0, 4096.0), random.between(0.0, 4096.0))).collect()
}

/// The quads of a hundred stars.
pub fn field(random: &mut Random) -> Lists {
    quads_among(&points(random))
}

/// The quads of a hundred stars, and those of the same stars turned and a little off.
pub fn same_field(random: &mut Random) -> [Lists; 2] {
    let points = points(random);
    let moved = points.iter().map(|&(x, y)| {
        let [u, v] = [(); 2].map(|()| random.between(-0.3, 0.3));
        (0.8 * x - 0.6 * y + u, 0.6 * x + 0.8 * y + v)
    });
    let moved: Vec<_> = moved.collect();
    [&points, &moved].map(|points| quads_among(points))
}

fn quads_among(points: &[(f64, f64)]) -> Lists {
    let stars: Vec<_> = points.iter().map(|&(x, y)| theirs::quad::star(x, y)).collect();
    let quads = query::neighbor_quads(&stars, 10, 0.0);
    let places = quads.iter().flat_map(|quad| quad.star_indices.map(|place| place as u8));
    (places.collect(), quads.iter().flat_map(|quad| quad.hash).collect())
}

pub fn quads_of((places, hashes): &Lists) -> Quads<'_> {
    Quads { places, hashes }
}

fn voters(frame: &Frame) -> Voters<'_> {
    Voters {
        det_x: &frame.numbers,
        det_y: &frame.numbers,
        det_snr: &frame.numbers,
        image_ids: &frame.ids,
        catalogue_ids: &frame.names,
        result_ids: &frame.names,
        result_ra: &frame.numbers,
        result_dec: &frame.numbers,
    }
}

fn room() -> Pairs {
    let list = || vec![0.0; 100];
    Pairs { px_x: list(), px_y: list(), ra: list(), dec: list(), votes: vec![0; 100], snr: list() }
}

/// A hundred rows of a plate, each third one off.
fn plate(random: &mut Random) -> RowLists {
    let rows: Vec<rows::Row> = (0..100)
        .map(|i| {
            let [px, py] = [(); 2].map(|()| random.between(0.0, 4096.0));
            let off = if i % 3 == 0 { 500.0 } else { 1.0 };
            let [u, v] = [(); 2].map(|()| random.between(-off, off));
            let (x, y) = (px + u, py + v);
            (px, py, 0.5 * x - 0.25 * y + 3.0, 0.25 * x + 0.5 * y - 7.0)
        })
        .collect();
    RowLists::of(&rows)
}

fn tuples_of(rows: &RowLists) -> Vec<celestial_solver::Row> {
    let [px, py, xi, eta] = &rows.0;
    (0..px.len()).map(|i| (px[i], py[i], xi[i], eta[i])).collect()
}

fn lists(rows: &RowLists) -> [&[f64]; 4] {
    [0, 1, 2, 3].map(|place| &*rows.0[place])
}
