//! From quads to pairs: the search, the votes, the affine score.
//!
//! A lent output starts filled with a pattern, and an answer holds it whole, so that a place that
//! was not to be written shows when it was.

use super::index::{BESIDE, BUILD_HASH_INDEX, CROWDED, FIND_MATCHES_INDEXED, LARGE};
use super::index::{LONG_INDEX, LONG_SEARCH, MANY};
use super::{Call, Group};
use crate::case::{Answer, Case, Kind};
use crate::ours::matching::{Pairs, Quads, Rows, Voters};
use crate::random::Random;
use crate::rows::{self, RowLists};
use crate::{bench, edges, ours, theirs};

pub const GROUP: Group = Group {
    name: "matching",
    title: "From quads to the affine score",
    calls: &[
        FIND_MATCHES,
        BUILD_HASH_INDEX,
        FIND_MATCHES_INDEXED,
        EXTRACT_PAIRS,
        FIT_AFFINE_3PT,
        COUNT_AFFINE_INLIERS,
        VERIFY_PAIRS,
    ],
    also: &[
        MANY_QUADS,
        MILLION_FOUND,
        LONG_INDEX,
        LONG_SEARCH,
        BESIDE,
        CROWDED,
        MANY,
        LARGE,
        MILLION_VOTED,
        WHOLE_ROWS,
    ],
    notes: |_| Vec::new(),
    bench: bench::matching::rows,
    tables: bench::index::tables,
};

/// What a lent output holds before the call.
pub const BYTE: u8 = 0xa5;
pub const WORD: u64 = 0xa5a5_a5a5_a5a5_a5a5;
const FLOAT: f64 = f64::from_bits(WORD);

// ---- find_matches

pub const FIND_MATCHES: Call = Call {
    name: "find_matches",
    takes: &[
        Kind::Numbers, // the places of the image quads
        Kind::Floats,  // their hashes
        Kind::Numbers, // the places of the catalogue quads
        Kind::Floats,  // their hashes
        Kind::Number,  // the length of the output
    ],
    edges: |every| {
        let mut cases = Vec::new();
        let hashes = edge_hashes(every);
        for (place, hash) in hashes.iter().enumerate() {
            let steps = steps_from(*hash).into_iter().skip(place % 3).step_by(every.div_ceil(8));
            let others: Vec<[f64; 4]> = steps.chain([*hash, hashes[place / 2], *hash]).collect();
            let (image, catalogue) = (QuadLists::of(&[*hash]), QuadLists::of(&others));
            let exact = room_for(&image, &catalogue);
            cases.push(matches_case(&image, &catalogue, exact));
            if place % 8 == 0 {
                let rooms = [0, exact.saturating_sub(1), exact + 3];
                cases.extend(rooms.map(|room| matches_case(&image, &catalogue, room)));
            }
        }
        let hash = [0.5, -0.5, 0.5, 0.5];
        let three = QuadLists::of(&[hash; 3]);
        cases.push(matches_case(&three, &QuadLists::of(&[]), 5));
        cases.push(matches_case(&QuadLists::of(&[]), &three, 5));
        for other in three.uneven() {
            cases.push(matches_case(&three, &other, 72));
            cases.push(matches_case(&other, &three, 72));
        }
        // near quads with many key numbers, and such as stand in three of the search's blocks of 64
        let near = QuadLists::of(&steps_from(hash));
        cases.push(matches_case(&QuadLists::of(&[hash]), &near, 8 * steps_from(hash).len()));
        let far = |i: usize| if i % 9 == 0 { hash } else { hash.map(|x| x + 1.0) };
        let long = QuadLists::of(&(0..150).map(far).collect::<Vec<_>>());
        cases.push(matches_case(&QuadLists::of(&[hash, hash]), &long, 8 * 2 * 17));
        // half a quad more, in both lists
        let mut half = QuadLists::of(&[hash]);
        half.places.extend([1, 2]);
        half.hashes.extend([0.5, 0.5]);
        cases.push(matches_case(&half, &QuadLists::of(&[hash]), 100));
        cases.push(matches_case(&QuadLists::of(&[hash]), &half, 100));
        cases
    },
    random: |random| {
        let [image, catalogue] = [(); 2].map(|()| random_quads(random, 20));
        let exact = room_for(&image, &catalogue).min(4000);
        let room = random.one_of(&[exact, exact, exact, exact + 9, exact.saturating_sub(1)]);
        matches_case(&image, &catalogue, room)
    },
    count: 200_000,
    theirs: |case| find_matches(case, theirs::matching::find_matches),
    ours: |case| find_matches(case, ours::matching::find_matches),
};

/// Lists of up to 12,000 quads and more, of random hashes and of few.
const MANY_QUADS: Call = Call {
    name: "find_matches: many quads",
    edges: |_| {
        let hash = [0.25, f64::NAN, 1e300, -7.0];
        let quads = |n: usize| QuadLists::of(&vec![hash; n]);
        let few = [(12_000, 1), (1, 12_000), (12_001, 1), (1, 12_001), (12_001, 12_001)];
        let cases = few.map(|(image, catalogue)| (quads(image), quads(catalogue)));
        cases.map(|(image, catalogue)| matches_case(&image, &catalogue, 96_001)).into()
    },
    random: |random| {
        let [image, catalogue] = [(); 2].map(|()| random_quads(random, 3000));
        matches_case(&image, &catalogue, room_for(&image, &catalogue) + 1)
    },
    count: 60,
    ..FIND_MATCHES
};

/// A million matches and more; the case is the number of quads in each list.
const MILLION_FOUND: Call = Call {
    name: "find_matches: a million",
    takes: &[Kind::Number],
    edges: |_| vec![Case::new().number(1_100)],
    random: |_| unreachable!("no random cases"),
    count: 0,
    theirs: |case| million_found(case, theirs::matching::find_matches),
    ours: |case| million_found(case, ours::matching::find_matches),
};

fn million_found(case: &Case, by: FindMatches) -> Answer {
    let n: usize = case.number_at(0);
    let hash = |i: usize| [0.25 + (i % 3) as f64 / 100.0, 0.5, -0.5, (i % 2) as f64 / 100.0];
    let quads = QuadLists::of(&(0..n).map(hash).collect::<Vec<_>>());
    let (mut matches, mut found) = (vec![BYTE; 8 * n * n + 1], WORD);
    let number = by(quads.quads(), quads.quads(), &mut matches, &mut found);
    Answer::new().number(number).numbers(&matches).number(found)
}

/// Two lists that may differ in length.
#[derive(Clone)]
pub struct QuadLists {
    pub places: Vec<u8>,
    pub hashes: Vec<f64>,
}

impl QuadLists {
    pub fn of(hashes: &[[f64; 4]]) -> QuadLists {
        let places = (0..4 * hashes.len()).map(|place| (place * 7 % 251) as u8).collect();
        QuadLists { places, hashes: hashes.concat() }
    }

    /// The image quads and the catalogue quads of a case.
    pub fn both(case: &Case) -> [QuadLists; 2] {
        [0, 2].map(|place| QuadLists {
            places: case.numbers_at(place),
            hashes: case.floats_at(place + 1).to_vec(),
        })
    }

    pub fn quads(&self) -> Quads<'_> {
        Quads { places: &self.places, hashes: &self.hashes }
    }

    /// The same with one place or hash number too few, or one more of both.
    pub fn uneven(&self) -> [QuadLists; 3] {
        let mut lists = [self.clone(), self.clone(), self.clone()];
        lists[0].places.pop();
        lists[1].hashes.pop();
        lists[2].places.push(1);
        lists[2].hashes.push(0.5);
        lists
    }
}

pub fn matches_case(image: &QuadLists, catalogue: &QuadLists, room: usize) -> Case {
    lists_case(image, catalogue).number(room as u64)
}

/// What the case of a search starts with.
pub fn lists_case(image: &QuadLists, catalogue: &QuadLists) -> Case {
    let lists = Case::new().numbers(&image.places).floats(&image.hashes);
    lists.numbers(&catalogue.places).floats(&catalogue.hashes)
}

pub type FindMatches = fn(Quads, Quads, &mut [u8], &mut u64) -> u32;

fn find_matches(case: &Case, by: FindMatches) -> Answer {
    let [image, catalogue] = QuadLists::both(case);
    let (mut matches, mut found) = (vec![BYTE; case.number_at(4)], WORD);
    let number = by(image.quads(), catalogue.quads(), &mut matches, &mut found);
    Answer::new().number(number).numbers(&matches).number(found)
}

/// How many places the matches take; 0 where they are refused.
pub fn room_for(image: &QuadLists, catalogue: &QuadLists) -> usize {
    let mut found = 0;
    let room = 2 * image.places.len() * catalogue.places.len();
    let mut matches = vec![BYTE; room.min(8 * 4_000_000)];
    theirs::matching::find_matches(image.quads(), catalogue.quads(), &mut matches, &mut found);
    8 * found as usize
}

/// Each hash number at the edges, in each of the four places in turn.
pub fn edge_hashes(every: usize) -> Vec<[f64; 4]> {
    let turns = [-5.0, -5.01, 650.35, 650.36, 21_474_831.47, 21_474_831.48, 21_474_836.47];
    let numbers: Vec<f64> = edges::specials()
        .into_iter()
        .chain(turns.into_iter().flat_map(edges::around))
        .chain(edges::hash_numbers(every.max(40)))
        .collect();
    let at = |place: usize| numbers[place % numbers.len()];
    let hashes = (0..numbers.len()).step_by(every.div_ceil(2));
    hashes.map(|place| [0, 7, 19, 31].map(|apart| at(place + apart))).collect()
}

/// The hash with steps of one and two hundredths, in one number and in all.
pub fn steps_from(hash: [f64; 4]) -> Vec<[f64; 4]> {
    let mut hashes = Vec::new();
    for step in [-0.02, -0.01, 0.01, 0.02] {
        for place in 0..4 {
            let mut other = hash;
            other[place] += step;
            hashes.push(other);
        }
        hashes.push(hash.map(|x| x + step));
        hashes.push([hash[0] + step, hash[1] - step, hash[2], hash[3] + step]);
    }
    hashes
}

/// Up to `most` quads, whose hashes are near few others, so that keys repeat.
fn random_quads(random: &mut Random, most: u64) -> QuadLists {
    let n = random.below(most + 1) as usize;
    let wide = random.one_of(&[0.0, 0.03, 0.3, 3.0]);
    let hashes: Vec<[f64; 4]> = (0..n).map(|_| random_hash(random, wide)).collect();
    let mut quads = QuadLists::of(&hashes);
    for place in &mut quads.places {
        *place = random.below(256) as u8;
    }
    match random.below(200) {
        uneven @ 0..3 if n > 0 => quads.uneven()[uneven as usize].clone(),
        _ => quads,
    }
}

pub fn random_hash(random: &mut Random, wide: f64) -> [f64; 4] {
    let style = random.below(12);
    [0.5, -0.5, 1.0, 0.0].map(|middle| match style {
        0 => random.pattern(),
        1 => random.one_of(&[f64::NAN, 1e300, -1e300, f64::INFINITY, middle]),
        2 => random.signed(21_474_836.47) + random.between(-6.0, 6.0),
        3 => random.near(middle, 2),
        _ => middle + random.between(-wide, wide),
    })
}

// ---- extract_pairs

const EXTRACT_PAIRS: Call = Call {
    name: "extract_pairs",
    takes: &[
        Kind::Numbers, // the matches
        Kind::Floats,  // detections: x, y, snr
        Kind::Floats,
        Kind::Floats,
        Kind::Numbers, // image ids
        Kind::Ids,     // catalogue ids
        Kind::Ids,     // results: id, right ascension, declination
        Kind::Floats,
        Kind::Floats,
        Kind::Numbers, // the lengths of the six outputs
    ],
    edges: |every| {
        let mut cases = Vec::new();
        for lists in ballots() {
            for room in [3, 100, 0, 1] {
                cases.push(pairs_case(&lists, [room; 6]));
            }
            for short in 0..6 {
                let mut rooms = [4; 6];
                rooms[short] = 0;
                cases.push(pairs_case(&lists, rooms));
            }
        }
        let mut cases: Vec<Case> = cases.into_iter().step_by(every.div_ceil(8) * 2 - 1).collect();
        cases.extend(ballots().iter().map(|lists| pairs_case(lists, [3; 6])));
        let bad = bad_ballots();
        let bad = bad.iter().step_by(every.div_ceil(12));
        cases.extend(bad.map(|lists| pairs_case(lists, [4; 6])));
        cases
    },
    random: |random| {
        let lists = random_ballot(random);
        let mut rooms = [lists.det_x.len(); 6];
        if random.below(8) == 0 {
            rooms = rooms.map(|_| random.below(10) as usize);
        }
        pairs_case(&lists, rooms)
    },
    count: 500_000,
    theirs: |case| extract_pairs(case, theirs::matching::extract_pairs),
    ours: |case| extract_pairs(case, ours::matching::extract_pairs),
};

/// A million matches; the case is the number of stars.
const MILLION_VOTED: Call = Call {
    name: "extract_pairs: a million",
    takes: &[Kind::Number],
    edges: |_| [100, 99, 7].map(|n| Case::new().number(n)).into(),
    random: |_| unreachable!("no random cases"),
    count: 0,
    theirs: |case| million_voted(case, theirs::matching::extract_pairs),
    ours: |case| million_voted(case, ours::matching::extract_pairs),
};

fn million_voted(case: &Case, by: ExtractPairs) -> Answer {
    let n: usize = case.number_at(0);
    let mut random = Random::new(n as u64, "a million");
    let mut lists = Ballot::of(n);
    lists.matches = (0..1_000_000).flat_map(|_| one_match(&mut random, n as u64)).collect();
    let (mut out, mut pairs) = (lent([n; 6]), WORD);
    let number = by(&lists.matches, lists.voters(), &mut out, &mut pairs);
    pairs_answer(number, &out, pairs)
}

/// A match whose places mostly agree.
fn one_match(random: &mut Random, n: u64) -> [u8; 8] {
    let mut eight = [0; 8];
    for place in 0..4 {
        let image = random.below(n) as u8;
        let other = random.below(n) as u8;
        eight[place] = image;
        eight[4 + place] = random.one_of(&[image, image, other]);
    }
    eight
}

/// All that voting takes.
#[derive(Clone)]
struct Ballot {
    matches: Vec<u8>,
    det_x: Vec<f64>,
    det_y: Vec<f64>,
    det_snr: Vec<f64>,
    image_ids: Vec<u32>,
    catalogue_ids: Vec<i64>,
    result_ids: Vec<i64>,
    result_ra: Vec<f64>,
    result_dec: Vec<f64>,
}

impl Ballot {
    /// n stars in each list, under their own ids, and no matches.
    fn of(n: usize) -> Ballot {
        let list = |start: f64| (0..n).map(|i| start + i as f64).collect::<Vec<f64>>();
        Ballot {
            matches: Vec::new(),
            det_x: list(0.5),
            det_y: list(1000.25),
            det_snr: list(7.0),
            image_ids: (0..n as u32).collect(),
            catalogue_ids: (0..n as i64).collect(),
            result_ids: (0..n as i64).collect(),
            result_ra: list(100.0),
            result_dec: list(-50.0),
        }
    }

    fn voters(&self) -> Voters<'_> {
        Voters {
            det_x: &self.det_x,
            det_y: &self.det_y,
            det_snr: &self.det_snr,
            image_ids: &self.image_ids,
            catalogue_ids: &self.catalogue_ids,
            result_ids: &self.result_ids,
            result_ra: &self.result_ra,
            result_dec: &self.result_dec,
        }
    }
}

/// Matches in which each pair of places is voted for as often as said.
fn voted(pairs: &[(u8, u8, usize)]) -> Vec<u8> {
    let votes = pairs.iter().flat_map(|&(image, other, n)| vec![(image, other); n]);
    let votes: Vec<(u8, u8)> = votes.collect();
    let four = |four: &[(u8, u8)]| {
        let at = |place: usize| four.get(place).copied().unwrap_or((255, 255));
        let eight = [0, 1, 2, 3].map(at);
        [eight.map(|vote| vote.0), eight.map(|vote| vote.1)].concat()
    };
    votes.chunks(4).flat_map(four).collect()
}

/// Each rule of voting, by a few votes.
fn ballots() -> Vec<Ballot> {
    let three = Ballot::of(3);
    let ballot = |pairs: &[(u8, u8, usize)]| Ballot { matches: voted(pairs), ..three.clone() };
    let with = |catalogue: [i64; 3], results: [i64; 3], pairs: &[(u8, u8, usize)]| Ballot {
        catalogue_ids: catalogue.to_vec(),
        result_ids: results.to_vec(),
        ..ballot(pairs)
    };
    let images = |ids: [u32; 3], pairs: &[(u8, u8, usize)]| Ballot {
        image_ids: ids.to_vec(),
        ..ballot(pairs)
    };
    let own = [7, 9, 11];
    vec![
        Ballot::of(0),
        Ballot::of(1),
        ballot(&[]),
        ballot(&[(0, 0, 2), (1, 1, 2), (2, 2, 2)]),
        ballot(&[(0, 0, 1), (1, 1, 2), (2, 2, 3)]),
        // a loser is not given its second choice
        with(own, own, &[(0, 0, 3), (1, 0, 2), (1, 1, 2)]),
        with(own, own, &[(0, 0, 3), (1, 0, 4), (1, 1, 2), (0, 2, 2)]),
        // ties: the smaller catalogue id, which may be below zero; the smaller image id
        ballot(&[(0, 2, 2), (0, 1, 2)]),
        with([5, -5, 0], [-5, 0, 5], &[(0, 0, 2), (0, 1, 2), (0, 2, 2)]),
        with([i64::MAX, i64::MIN, -1], [i64::MIN, -1, i64::MAX], &[(0, 0, 2), (0, 1, 2)]),
        with([i64::MAX, 3, -1], [3, -1, i64::MAX], &[(1, 0, 2), (1, 2, 2), (0, 2, 2)]),
        ballot(&[(2, 0, 2), (1, 0, 2)]),
        ballot(&[(2, 0, 2), (1, 0, 2), (0, 1, 9)]),
        // places outside the lists, ids without a position
        ballot(&[(3, 0, 4), (0, 3, 4), (255, 255, 4), (1, 1, 2)]),
        with([7, 8, 9], [7, 7, 9], &[(0, 1, 4), (1, 0, 2), (2, 2, 2)]),
        with([7, 8, 9], [9, 9, 9], &[(0, 2, 2), (1, 0, 2)]),
        // repeated ids, of the results the last
        with([4, 4, 5], [4, 5, 4], &[(0, 0, 1), (0, 1, 1), (1, 2, 2)]),
        images([1, 1, 0], &[(0, 0, 1), (1, 0, 1), (2, 1, 2)]),
        // missing detections, where the vote counts and where it does not
        images([0, 3, 4_294_967_295], &[(0, 0, 2)]),
        images([0, 3, 4_294_967_295], &[(0, 0, 2), (1, 1, 1)]),
        images([0, 3, 4_294_967_295], &[(0, 0, 2), (2, 3, 1)]),
        images([0, 3, 4_294_967_295], &[(0, 0, 2), (2, 1, 1)]),
        Ballot { result_ids: vec![0, 0, 0], ..images([0, 3, 3], &[(1, 1, 4), (0, 0, 2)]) },
        Ballot { result_ids: vec![0, 0, 0], ..images([0, 3, 3], &[(0, 0, 2), (1, 0, 1)]) },
    ]
}

/// Lists that are refused: too long, uneven, with values outside; in pairs too.
fn bad_ballots() -> Vec<Ballot> {
    let good = Ballot { matches: voted(&[(0, 0, 2), (1, 1, 2)]), ..Ballot::of(3) };
    let long = Ballot { matches: good.matches.clone(), ..Ballot::of(101) };
    let missing = Ballot { image_ids: vec![9, 9, 9], ..good.clone() };
    let mut lists = vec![long.clone()];
    let edit = |lists: &mut Vec<Ballot>, change: &dyn Fn(&mut Ballot)| {
        for start in [&good, &missing] {
            let mut ballot = start.clone();
            change(&mut ballot);
            lists.push(ballot);
        }
    };
    for extra in [1, 4, 7] {
        edit(&mut lists, &|b| b.matches.extend(vec![0; extra]));
    }
    for bad in [f64::NAN, 1_048_576.5, f64::NEG_INFINITY, -1.0, -0.0] {
        edit(&mut lists, &|b| b.det_x[2] = bad);
        edit(&mut lists, &|b| b.det_y[0] = bad);
        edit(&mut lists, &|b| b.det_snr[1] = bad);
        edit(&mut lists, &|b| b.result_ra[2] = bad);
        edit(&mut lists, &|b| b.result_dec[0] = bad);
    }
    edit(&mut lists, &|b| b.det_x.truncate(2));
    edit(&mut lists, &|b| b.det_y.truncate(2));
    edit(&mut lists, &|b| b.det_snr.truncate(2));
    edit(&mut lists, &|b| b.result_ra.truncate(2));
    edit(&mut lists, &|b| b.result_dec.truncate(2));
    edit(&mut lists, &|b| b.result_ids.truncate(2));
    edit(&mut lists, &|b| b.det_x.clone_from(&long.det_x));
    edit(&mut lists, &|b| b.det_snr.clone_from(&long.det_snr));
    edit(&mut lists, &|b| b.image_ids.clone_from(&long.image_ids));
    edit(&mut lists, &|b| b.catalogue_ids.clone_from(&long.catalogue_ids));
    edit(&mut lists, &|b| b.result_ids.clone_from(&long.result_ids));
    edit(&mut lists, &|b| b.result_dec.clone_from(&long.result_dec));
    lists
}

fn random_ballot(random: &mut Random) -> Ballot {
    let pool = [0, 1, 2, -1, -2, i64::MIN, i64::MAX, 1 << 40];
    let most = random.one_of(&[2, 3, 5, 9]);
    let [detections, images, catalogue, results] = [(); 4].map(|()| random.below(most + 1));
    let few = random.one_of(&[2, 4, 8]);
    let mut lists = Ballot::of(0);
    for _ in 0..detections {
        lists.det_x.push(random.between(-100.0, 4096.0));
        lists.det_y.push(random.one_of(&[0.0, -0.0, 5.0, 1_048_576.0]));
        lists.det_snr.push(random.between(0.0, 50.0));
    }
    let missing = random.below(6) == 0;
    let ids = (detections + u64::from(missing)).max(1);
    lists.image_ids = (0..images).map(|_| random.below(ids) as u32).collect();
    lists.catalogue_ids = (0..catalogue).map(|_| random.one_of(&pool[..few])).collect();
    lists.result_ids = (0..results).map(|_| random.one_of(&pool[..few])).collect();
    lists.result_ra = (0..results).map(|_| random.between(0.0, 360.0)).collect();
    lists.result_dec = (0..results).map(|_| random.between(-90.0, 90.0)).collect();
    let outside = random.below(2);
    for _ in 0..random.below(12) {
        let images = [(); 4].map(|()| random.below((images + outside).max(1)) as u8);
        let others = [(); 4].map(|()| random.below((catalogue + outside).max(1)) as u8);
        lists.matches.extend(images.into_iter().chain(others));
    }
    damaged(random, lists)
}

/// In one of a few ballots a value is outside the domain, or a list has one too few.
fn damaged(random: &mut Random, mut lists: Ballot) -> Ballot {
    let bad = random.one_of(&rows::BAD);
    match random.below(120) {
        0 => drop(lists.matches.pop()),
        1 => drop(lists.det_y.pop()),
        2 => drop(lists.result_ra.pop()),
        3 => drop(lists.result_ids.pop()),
        4 => lists.det_x.iter_mut().for_each(|x| *x = bad),
        5 => lists.det_snr.iter_mut().take(1).for_each(|x| *x = bad),
        6 => lists.result_dec.iter_mut().take(1).for_each(|x| *x = bad),
        _ => {}
    }
    lists
}

fn pairs_case(lists: &Ballot, rooms: [usize; 6]) -> Case {
    let detections = Case::new().numbers(&lists.matches).floats(&lists.det_x);
    let detections = detections.floats(&lists.det_y).floats(&lists.det_snr);
    let ids = detections.numbers(&lists.image_ids).ids(&lists.catalogue_ids);
    let results = ids.ids(&lists.result_ids).floats(&lists.result_ra).floats(&lists.result_dec);
    results.numbers(&rooms.map(|room| room as u64))
}

type ExtractPairs = fn(&[u8], Voters, &mut Pairs, &mut u64) -> u32;

fn extract_pairs(case: &Case, by: ExtractPairs) -> Answer {
    let (matches, image_ids) = (case.numbers_at::<u8>(0), case.numbers_at::<u32>(4));
    let voters = Voters {
        det_x: case.floats_at(1),
        det_y: case.floats_at(2),
        det_snr: case.floats_at(3),
        image_ids: &image_ids,
        catalogue_ids: case.ids_at(5),
        result_ids: case.ids_at(6),
        result_ra: case.floats_at(7),
        result_dec: case.floats_at(8),
    };
    let rooms = case.numbers_at::<usize>(9);
    let rooms = [0, 1, 2, 3, 4, 5].map(|place| rooms[place]);
    let (mut out, mut pairs) = (lent(rooms), WORD);
    let number = by(&matches, voters, &mut out, &mut pairs);
    pairs_answer(number, &out, pairs)
}

fn lent([px_x, px_y, ra, dec, votes, snr]: [usize; 6]) -> Pairs {
    Pairs {
        px_x: vec![FLOAT; px_x],
        px_y: vec![FLOAT; px_y],
        ra: vec![FLOAT; ra],
        dec: vec![FLOAT; dec],
        votes: vec![WORD as u32; votes],
        snr: vec![FLOAT; snr],
    }
}

fn pairs_answer(number: u32, out: &Pairs, pairs: u64) -> Answer {
    let pixels = Answer::new().number(number).floats(&out.px_x).floats(&out.px_y);
    let places = pixels.floats(&out.ra).floats(&out.dec);
    places.numbers(&out.votes).floats(&out.snr).number(pairs)
}

// ---- fit_affine_3pt

const FIT_AFFINE_3PT: Call = Call {
    name: "fit_affine_3pt",
    takes: &[
        Kind::Floats, // px, py, xi, eta
        Kind::Floats,
        Kind::Floats,
        Kind::Floats,
        Kind::Number, // three places
        Kind::Number,
        Kind::Number,
        Kind::Number, // the length of the output
    ],
    edges: |every| {
        let mut cases = Vec::new();
        for rows in rows::figures() {
            let n = rows.count() as u8;
            for places in [[0, 1, 2], [2, 1, 0], [1, 2, 0], [0, 0, 1], [0, 1, n], [n, 0, 1]] {
                cases.push(affine_case(&rows, places, 6));
            }
            cases.extend([0, 5, 7, 9].map(|room| affine_case(&rows, [0, 1, 2], room)));
        }
        // determinants around 1e-20 and next to it
        for least in [1e-20, 1e-20f64.next_down(), 1e-20f64.next_up(), -1e-20, 0.0, 5e-324] {
            let rows = RowLists::of(&[
                (0.0, 0.0, 1.0, 2.0),
                (least, 0.0, 3.0, 5.0),
                (0.0, 1.0, -2.0, 0.5),
            ]);
            cases.extend([5, 6, 7].map(|room| affine_case(&rows, [0, 1, 2], room)));
            cases.push(affine_case(&rows, [0, 2, 1], 6));
        }
        let refused = rows::refused();
        cases.extend(refused.iter().map(|rows| affine_case(rows, [0, 1, 2], 6)));
        let worse = refused.iter().step_by(every);
        cases.extend(worse.map(|rows| affine_case(rows, [0, 1, 200], 5)));
        cases
    },
    random: |random| {
        let n = random.one_of(&[3, 3, 3, 4, 6, 1, 0]);
        let rows = rows::random_or_bad(random, n);
        let place = |random: &mut Random| random.below(n as u64 + u64::from(n < 4)) as u8;
        let places = [(); 3].map(|()| place(random));
        affine_case(&rows, places, random.one_of(&[6, 6, 6, 6, 6, 7, 5]))
    },
    count: 300_000,
    theirs: |case| fit_affine_3pt(case, theirs::matching::fit_affine_3pt),
    ours: |case| fit_affine_3pt(case, ours::matching::fit_affine_3pt),
};

fn affine_case(rows: &RowLists, [a, b, c]: [u8; 3], room: usize) -> Case {
    rows.fields().number(a).number(b).number(c).number(room as u64)
}

fn rows_at(case: &Case) -> Rows<'_> {
    [0, 1, 2, 3].map(|place| case.floats_at(place))
}

fn fit_affine_3pt(case: &Case, by: fn(Rows, [u8; 3], &mut [f64]) -> u32) -> Answer {
    let mut affine = vec![FLOAT; case.number_at(7)];
    let places = [4, 5, 6].map(|place| case.number_at(place));
    let number = by(rows_at(case), places, &mut affine);
    Answer::new().number(number).floats(&affine)
}

// ---- count_affine_inliers

const COUNT_AFFINE_INLIERS: Call = Call {
    name: "count_affine_inliers",
    takes: &[
        Kind::Floats, // px, py, xi, eta
        Kind::Floats,
        Kind::Floats,
        Kind::Floats,
        Kind::Floats, // the affine
        Kind::Float,  // the threshold
    ],
    edges: |every| {
        let mut cases = Vec::new();
        let limits = [10.0, 0.0, -0.0, 5.0, f64::MAX, 1e200, 5e-324];
        for rows in rows::figures() {
            for affine in affines() {
                cases.extend(limits.map(|limit| inliers_case(&rows, &affine, limit)));
            }
        }
        let mut cases: Vec<Case> = cases.into_iter().step_by(every.div_ceil(2) * 2 - 1).collect();
        // an error of exactly the limit, and of the floats next to it
        let steps = [3.0, 4.0, 5.0, 10.0, 0.1];
        for step in steps.into_iter().flat_map(edges::around) {
            let rows = RowLists::of(&[(7.0, 1.0, 7.0 + step, 1.0), (7.0, 1.0, 7.0, 1.0 - step)]);
            cases.push(inliers_case(&rows, &affines()[0], step));
        }
        for bad in [f64::NAN, f64::INFINITY, -1.0, -5e-324] {
            let rows = RowLists::of(&[(0.0, 0.0, 0.0, 0.0); 3]);
            cases.push(inliers_case(&rows, &affines()[0], bad));
            for place in 0..6 {
                let mut affine = affines()[0];
                affine[place] = bad;
                cases.push(inliers_case(&rows, &affine, 10.0));
            }
            cases.push(inliers_case(&rows, &[1.0; 5], bad));
            cases.push(inliers_case(&rows, &[bad; 7], 10.0));
            cases.push(inliers_case(&rows, &[], 10.0));
        }
        for rows in rows::refused() {
            cases.push(inliers_case(&rows, &affines()[0], 10.0));
            cases.push(inliers_case(&rows, &[0.0; 7], f64::NAN));
        }
        cases
    },
    random: |random| {
        let n = random.one_of(&[0, 1, 3, 5, 12]);
        let rows = rows::random_or_bad(random, n);
        let affine = match random.below(6) {
            0 => [(); 6].map(|()| random.pattern()),
            1 => random.one_of(&affines()),
            2 => [(); 6].map(|()| random.one_of(&[0.0, -0.0, 1.0, -1.0, 1e-15, 1e200])),
            _ => [(); 6].map(|()| random.between(-2.0, 2.0)),
        };
        let limit = random.one_of(&[0.0, 1.0, 10.0, 100.0, 1e6, f64::NAN]);
        let limit = if limit.is_nan() { random.between(-0.1, 5.0) } else { limit };
        inliers_case(&rows, &affine, limit)
    },
    count: 300_000,
    theirs: |case| count_affine_inliers(case, theirs::matching::count_affine_inliers),
    ours: |case| count_affine_inliers(case, ours::matching::count_affine_inliers),
};

/// The identity, and affines whose determinants are 0, around 1e-30, infinite and NaN.
fn affines() -> [[f64; 6]; 12] {
    let least = 1e-30f64;
    [
        [1.0, 0.0, 0.0, 0.0, 1.0, 0.0],
        [0.5, -0.25, 3.0, 0.25, 0.5, -0.0],
        [-1.0, 2.0, 0.0, 3.0, 1.0, 5.0],
        [1.0, 1.0, 0.0, 1.0, 1.0, 0.0],
        [0.0; 6],
        [least, 0.0, 0.0, 0.0, 1.0, 0.0],
        [least.next_down(), 0.0, 0.0, 0.0, 1.0, 0.0],
        [0.0, least.next_down(), 0.0, 1.0, 0.0, 0.0],
        [0.0, -least, 1.0, 1.0, 0.0, 0.0],
        [1e200, 0.0, 0.0, 0.0, 1e200, 0.0],
        [1e200, 0.0, 0.0, 0.0, -1e200, 0.0],
        [1e200, 1e200, 0.0, 1e200, 1e200, 0.0],
    ]
}

fn inliers_case(rows: &RowLists, affine: &[f64], threshold: f64) -> Case {
    rows.fields().floats(affine).float(threshold)
}

fn count_affine_inliers(case: &Case, by: fn(Rows, &[f64], f64, &mut u64) -> u32) -> Answer {
    let mut inliers = WORD;
    let number = by(rows_at(case), case.floats_at(4), case.float_at(5), &mut inliers);
    Answer::new().number(number).number(inliers)
}

// ---- verify_pairs

const VERIFY_PAIRS: Call = Call {
    name: "verify_pairs",
    takes: &[Kind::Floats; 4], // px, py, xi, eta
    edges: |_| {
        let lists = rows::figures().into_iter().chain(rows::refused());
        let mut random = Random::new(1, "a hundred rows");
        let whole = rows::random(&mut random, 100); // as many as there may be
        let scattered = [3, 8, 200].into_iter().flat_map(scattered_rows);
        let lists = lists.chain([whole, best_at_last()]).chain(scattered);
        lists.map(|rows| rows.fields()).collect()
    },
    random: |random| {
        let n = random.one_of(&[0, 1, 2, 3, 4, 5, 7, 12]);
        rows::random_or_bad(random, n).fields()
    },
    count: 100_000,
    theirs: |case| verify_pairs(case, theirs::matching::verify_pairs),
    ours: |case| verify_pairs(case, ours::matching::verify_pairs),
};

/// Rows of no plate, on a grid of so many places a side: how many agree with the best affine hangs on
/// which triples are drawn, and so on the order of the rows.
fn scattered_rows(side: u64) -> Vec<RowLists> {
    let mut random = Random::new(side, "scattered");
    let mut lists = Vec::new();
    for n in [30, 60, 100] {
        for _ in 0..6 {
            let row = |_| {
                let [px, py] = [(); 2].map(|()| (random.below(side) * (240 / side)) as f64);
                let [xi, eta] = [(); 2].map(|()| random.between(0.0, 60.0));
                (px, py, xi, eta)
            };
            lists.push(RowLists::of(&(0..n).map(row).collect::<Vec<_>>()));
        }
    }
    lists
}

/// Ninety rows and some, in order, of which eight agree: three are those of the thousandth triple, and
/// no earlier triple is of the eight.
fn best_at_last() -> RowLists {
    let mut random = Random::new(1, "best at last");
    for n in (90..=100).rev() {
        let mut word = 0xcafe_babe_dead_beef_u64;
        let mut place = || {
            word ^= word << 13;
            word ^= word >> 7;
            word ^= word << 17;
            (word % n) as usize
        };
        let triples: Vec<[usize; 3]> = (0..1000).map(|_| [place(), place(), place()]).collect();
        let (last, earlier) = triples.split_last().expect("a thousand");
        for _ in 0..100 {
            let mut eight = last.to_vec();
            eight.extend((0..5).map(|_| random.below(n) as usize));
            let different: std::collections::HashSet<_> = eight.iter().collect();
            let is_of = |triple: &[usize; 3]| triple.iter().all(|place| eight.contains(place));
            if different.len() == 8 && !earlier.iter().any(is_of) {
                let row = |i: usize| {
                    let (x, y) = (50.0 * i as f64, 50.0 * random.below(n) as f64);
                    let [xi, eta] = [(); 2].map(|()| random.between(0.0, 1e6));
                    if eight.contains(&i) { (x, y, x, y) } else { (x, y, xi, eta) }
                };
                return RowLists::of(&(0..n as usize).map(row).collect::<Vec<_>>());
            }
        }
    }
    unreachable!("a list is found")
}

/// Lists as long as they may be.
const WHOLE_ROWS: Call = Call {
    name: "verify_pairs: 100 rows",
    edges: |_| Vec::new(),
    random: |random| rows::random(random, 100).fields(),
    count: 2_000,
    ..VERIFY_PAIRS
};

fn verify_pairs(case: &Case, by: fn(Rows, &mut u64) -> u32) -> Answer {
    let mut score = WORD;
    let number = by(rows_at(case), &mut score);
    Answer::new().number(number).number(score)
}
