//! The quads against the Rust. Stars, hashes and outputs are made beforehand; what the Rust
//! allocates in a call is its own time.

use std::cell::RefCell;
use std::hint::black_box;

use celestial_catalog::query::{self, QuadStar};

use super::{Row, medians, ratio_of, whole};
use crate::random::Random;
use crate::stars::Stars;
use crate::{ours, theirs};

const HASHES: usize = 12_000;
const FOURS: usize = 4_096;
const LISTS: usize = 4;

pub fn rows(random: &mut Random) -> Vec<Row> {
    let mut rows = quads(random);
    rows.extend(ends(random));
    rows.extend(sets());
    rows
}

fn quads(random: &mut Random) -> Vec<Row> {
    let signs: Vec<[f64; 4]> =
        (0..HASHES).map(|_| [(); 4].map(|()| random.between(-1.0, 1.0))).collect();
    let lists: Vec<Stars> = (0..LISTS).map(|_| field(random)).collect();
    let stars = lists[0].clone();
    let fours: Vec<[u8; 4]> = (0..FOURS).map(|_| four(random)).collect();
    let few: Vec<[u8; 4]> = fours.iter().map(|_| [0, 1, 2, 3]).collect();
    let few_stars = first_four(&stars);
    let [all, all_too, some, some_too] =
        [&stars, &stars, &few_stars, &few_stars].map(|stars| stars.clone());
    let [theirs_all, theirs_all_too] = [&stars, &stars].map(stars_of);
    let [theirs_some, theirs_some_too] = [&few_stars, &few_stars].map(stars_of);
    let their_lists: Vec<Vec<QuadStar>> = lists.iter().map(stars_of).collect();
    let quads = their_lists.iter().flat_map(|stars| query::neighbor_quads(stars, 10, 0.0));
    let hashes: Vec<[f64; 4]> = quads.map(|quad| quad.hash).take(HASHES).collect();

    let [keys, keys_too] = [(), ()].map(|()| RefCell::new([0; 81]));
    let outputs = RefCell::new((vec![0; 48_000], vec![0.0; 48_000], 0));
    vec![
        Row::over("81 keys of a hash", "Moorspindle", &hashes, move |&hash| {
            let mut keys = keys.borrow_mut();
            ours::discrete_hash_key_neighbors(hash, &mut *keys);
            black_box(&*keys);
        })
        .of("discrete_hash_key_neighbors"),
        Row::over("81 keys of a hash", "the Rust", &hashes, |hash| {
            black_box(&query::discrete_hash_key_neighbors(hash));
        }),
        Row::over("81 keys, all signs at random", "Moorspindle", &signs, move |&hash| {
            let mut keys = keys_too.borrow_mut();
            ours::discrete_hash_key_neighbors(hash, &mut *keys);
            black_box(&*keys);
        })
        .of("discrete_hash_key_neighbors"),
        Row::over("81 keys, all signs at random", "the Rust", &signs, |hash| {
            black_box(&query::discrete_hash_key_neighbors(hash));
        }),
        Row::over("key of a hash", "Moorspindle", &hashes, |&hash| ours::discrete_hash_key(hash))
            .of("discrete_hash_key"),
        Row::over("key of a hash", "the Rust", &hashes, query::discrete_hash_key),
        Row::over("spine of 4 of 100", "Moorspindle", &fours, move |&places| spine(&all, places))
            .of("find_spine"),
        Row::over("spine of 4 of 100", "the Rust", &fours, move |&places| {
            query::find_spine(&theirs_all, places.map(usize::from))
        }),
        Row::over("spine of 4 of 4", "Moorspindle", &few, move |&places| spine(&some, places))
            .of("find_spine"),
        Row::over("spine of 4 of 4", "the Rust", &few, move |&places| {
            query::find_spine(&theirs_some, places.map(usize::from))
        }),
        Row::over("hash of 4 of 100", "Moorspindle", &fours, move |&quad| hash(&all_too, quad))
            .of("normalize_quad_ordered"),
        Row::over("hash of 4 of 100", "the Rust", &fours, move |&quad| {
            their_hash(&theirs_all_too, quad)
        }),
        Row::over("hash of 4 of 4", "Moorspindle", &few, move |&quad| hash(&some_too, quad))
            .of("normalize_quad_ordered"),
        Row::over("hash of 4 of 4", "the Rust", &few, move |&quad| {
            their_hash(&theirs_some_too, quad)
        }),
        Row::over("quads of 100, k = 10", "Moorspindle", &lists, move |stars| {
            let (places, hashes, quads) = &mut *outputs.borrow_mut();
            ours::neighbor_quads(&stars.xs, &stars.ys, 10, 0.0, places, hashes, quads);
            black_box((places, hashes));
        })
        .of("neighbor_quads"),
        Row::over("quads of 100, k = 10", "the Rust", &their_lists, |stars| {
            query::neighbor_quads(stars, 10, 0.0)
        }),
    ]
}

/// Which end of a spine is its first.
fn ends(random: &mut Random) -> Vec<Row> {
    let mut point = || (random.between(0.0, 4096.0), random.between(0.0, 4096.0));
    let spines: Vec<_> = (0..FOURS).map(|_| [point(), point()]).collect();
    let their_spines: Vec<[QuadStar; 2]> =
        spines.iter().map(|ends| ends.map(|(x, y)| theirs::quad::star(x, y))).collect();
    vec![
        Row::over("ends of a spine", "Moorspindle", &spines, |&[(ax, ay), (bx, by)]| {
            let mut pair = [0; 2];
            ours::orient_spine((ax, ay, 7), (bx, by, 3), &mut pair);
            pair
        })
        .of("orient_spine"),
        Row::over("ends of a spine", "the Rust", &their_spines, |[a, b]| {
            query::orient_spine(a, 7, b, 3)
        }),
    ]
}

/// The sets of four of so many places: the start, and a walk through all of them.
fn sets() -> Vec<Row> {
    let counts = [24; FOURS];
    vec![
        Row::over("start of the sets of 4 of 24", "Moorspindle", &counts, |&n| {
            let mut state = [0; 5];
            ours::combinations_4(n, &mut state);
            state
        })
        .of("combinations_4"),
        Row::over("start of the sets of 4 of 24", "the Rust", &counts, |&n| {
            query::combinations_4(n as usize)
        }),
        Row::over("all 10,626 sets of 4 of 24", "Moorspindle", &counts[..1], |&n| walk(n))
            .of("combinations_4_next"),
        Row::over("all 10,626 sets of 4 of 24", "the Rust", &counts[..1], |&n| {
            query::combinations_4(n as usize).map(black_box).count()
        }),
    ]
}

fn walk(n: u32) -> usize {
    let (mut state, mut places, mut given) = ([0; 5], [0; 4], 1);
    ours::combinations_4(n, &mut state);
    let step = || {
        ours::combinations_4_next(n, &mut state, &mut places, &mut given);
        (given == 1).then(|| black_box(places))
    };
    std::iter::from_fn(step).count()
}

/// How the quads grow with the stars and with the neighbours: with room for all that there may be,
/// and with just as much as they take, so that they are counted first.
pub fn tables(random: &mut Random) -> Vec<String> {
    let heads = [
        "stars",
        "k",
        "quads",
        "ns",
        "just enough room, ns",
        "the Rust, ns",
        "ns / the Rust",
        "just enough / the Rust",
    ];
    let mut lines = vec![format!("| {} |", heads.join(" | "))];
    lines.push(format!("|{}", "--:|".repeat(heads.len())));
    let of_stars = [4, 14, 25, 50, 75, 100].map(|n| (n, 10));
    let of_neighbours = [9, 8, 7, 6, 5, 4, 3].map(|k| (100, k));
    for (n, k) in of_stars.into_iter().chain(of_neighbours) {
        lines.push(line(&stars_in(random, n), k));
    }
    lines
}

fn line(stars: &Stars, k: u32) -> String {
    let theirs = stars_of(stars);
    let quads = query::neighbor_quads(&theirs, k as usize, 0.0).len();
    let lists = [theirs];
    let rust =
        Row::over("", "", &lists, move |stars| query::neighbor_quads(stars, k as usize, 0.0));
    let rows = medians(&[quads_row(stars, k, 48_000), quads_row(stars, k, 4 * quads), rust]);
    let [ample, exact, rust] = [0, 1, 2].map(|place| rows[place][0].expect("each is timed"));
    let counts = [stars.xs.len(), k as usize, quads].map(|count| whole(count as f64));
    let times = [ample, exact, rust].map(whole);
    let ratios = [ample / rust, exact / rust].map(ratio_of);
    format!("| {} | {} | {} |", counts.join(" | "), times.join(" | "), ratios.join(" | "))
}

fn quads_row(stars: &Stars, k: u32, room: usize) -> Row {
    let outputs = RefCell::new((vec![0; room], vec![0.0; room], 0));
    Row::over("", "", &[stars.clone()], move |stars| {
        let (places, hashes, quads) = &mut *outputs.borrow_mut();
        ours::neighbor_quads(&stars.xs, &stars.ys, k, 0.0, places, hashes, quads);
        black_box((places, hashes));
    })
}

/// A hundred stars of a picture.
fn field(random: &mut Random) -> Stars {
    stars_in(random, 100)
}

/// So many stars of a picture.
fn stars_in(random: &mut Random, n: usize) -> Stars {
    let mut list = || (0..n).map(|_| random.between(0.0, 4096.0)).collect();
    Stars { xs: list(), ys: list() }
}

fn first_four(stars: &Stars) -> Stars {
    Stars { xs: stars.xs[..4].to_vec(), ys: stars.ys[..4].to_vec() }
}

/// Four places, no two of them equal.
fn four(random: &mut Random) -> [u8; 4] {
    let first = random.below(25) as u8;
    [first, 25 + random.below(25) as u8, 50 + random.below(25) as u8, 75 + first]
}

fn stars_of(stars: &Stars) -> Vec<QuadStar> {
    stars.xs.iter().zip(&stars.ys).map(|(&x, &y)| theirs::quad::star(x, y)).collect()
}

fn spine(stars: &Stars, places: [u8; 4]) -> [u8; 4] {
    let mut spine = [0; 4];
    ours::find_spine(&stars.xs, &stars.ys, places, &mut spine);
    spine
}

fn hash(stars: &Stars, quad: [u8; 4]) -> ([f64; 4], [u8; 4]) {
    let (mut hash, mut places) = ([0.0; 4], [0; 4]);
    ours::normalize_quad_ordered(&stars.xs, &stars.ys, quad, &mut hash, &mut places);
    (hash, places)
}

fn their_hash(stars: &[QuadStar], quad: [u8; 4]) -> Option<([f64; 4], [usize; 4])> {
    let [a, b, c, d] = quad.map(usize::from);
    query::normalize_quad_ordered(stars, a, b, c, d)
}
