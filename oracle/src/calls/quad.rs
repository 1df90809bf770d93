//! The quads: spine, hash, combinations, neighbours, keys.
//!
//! A lent output starts filled with a pattern, and an answer holds it whole, so that a place that
//! was not to be written shows when it was.

use super::{Call, Group};
use crate::case::{Answer, Case, Kind};
use crate::random::Random;
use crate::stars::{self, BAD, FURTHEST, Stars};
use crate::{bench, edges, ours, theirs};

pub const GROUP: Group = Group {
    name: "quad",
    title: "The quads",
    calls: &[
        FIND_SPINE,
        ORIENT_SPINE,
        NORMALIZE_QUAD_ORDERED,
        COMBINATIONS_4,
        COMBINATIONS_4_NEXT,
        NEIGHBOR_QUADS,
        DISCRETE_HASH_KEY,
        DISCRETE_HASH_KEY_NEIGHBORS,
    ],
    also: &[WHOLE_LISTS, LONGER_LISTS],
    notes: |_| Vec::new(),
    bench: bench::quad::rows,
    tables: bench::quad::tables,
};

/// What a lent output holds before the call.
const BYTE: u8 = 0xa5;
const WORD: u64 = 0xa5a5_a5a5_a5a5_a5a5;
const FLOAT: f64 = f64::from_bits(WORD);

fn lent<T: Copy>(pattern: T, places: usize) -> Vec<T> {
    vec![pattern; places]
}

fn bytes_at(case: &Case, places: [usize; 4]) -> [u8; 4] {
    places.map(|place| case.number_at(place))
}

// ---- find_spine

const FIND_SPINE: Call = Call {
    name: "find_spine",
    takes: &[
        Kind::Floats, // xs
        Kind::Floats, // ys
        Kind::Number, // four places
        Kind::Number,
        Kind::Number,
        Kind::Number,
        Kind::Number, // the length of the output
    ],
    edges: |every| {
        let rooms = [4, 0, 3, 5, 9];
        let roomy = fours(every).into_iter().map(|(stars, places)| spine_case(&stars, places, 4));
        let of_square = rooms.map(|room| spine_case(&Stars::square(), [2, 0, 3, 1], room));
        let past_the_end = rooms.map(|room| spine_case(&Stars::square(), [0, 4, 1, 2], room));
        roomy.chain(of_square).chain(past_the_end).collect()
    },
    random: |random| {
        let (stars, places) = random_four(random);
        spine_case(&stars, places, random.one_of(&ROOMS_OF_FOUR))
    },
    count: 400_000,
    theirs: |case| find_spine(case, theirs::quad::find_spine),
    ours: |case| find_spine(case, ours::find_spine),
};

/// How long an output of four places is in the random cases.
const ROOMS_OF_FOUR: [usize; 8] = [4, 4, 4, 4, 5, 7, 3, 0];

fn spine_case(stars: &Stars, places: [u8; 4], room: usize) -> Case {
    four_case(stars, places).number(room as u64)
}

fn four_case(stars: &Stars, places: [u8; 4]) -> Case {
    let lists = Case::new().floats(&stars.xs).floats(&stars.ys);
    places.into_iter().fold(lists, Case::number)
}

type FindSpine = fn(&[f64], &[f64], [u8; 4], &mut [u8]) -> u32;

fn find_spine(case: &Case, by: FindSpine) -> Answer {
    let mut spine = lent(BYTE, case.number_at(6));
    let places = bytes_at(case, [2, 3, 4, 5]);
    let number = by(case.floats_at(0), case.floats_at(1), places, &mut spine);
    Answer::new().number(number).numbers(&spine)
}

/// Four places of a list, also those that are refused.
fn fours(every: usize) -> Vec<(Stars, [u8; 4])> {
    let every = every.div_ceil(3);
    let mut fours = Vec::new();
    for stars in stars::figures() {
        let n = stars.xs.len() as u8;
        let first = orders([0, 1, 2, 3]);
        let last = orders([4, 3, 2, 1].map(|back| n.saturating_sub(back)));
        let repeated = [[0, 0, 0, 0], [0, 0, 1, 1], [1, 0, 0, 1], [3, 3, 3, 2], [0, 1, 2, 2]];
        let places = first.into_iter().chain(last).chain(repeated);
        fours.extend(places.step_by(every).map(|places| (stars.clone(), places)));
    }
    let good = [0, 1, 2, 3];
    let square = Stars::square();
    for place in 0..4 {
        for outside in [4, 5, 100, 255] {
            let mut places = good;
            places[place] = outside;
            fours.push((square.clone(), places));
        }
    }
    for bad in BAD.into_iter().step_by(every.min(2)) {
        for place in [0, 3, 4] {
            let mut stars = Stars::counted(5, 5);
            stars.xs[place] = bad;
            fours.push((stars, good));
            let mut stars = Stars::counted(5, 5);
            stars.ys[place] = bad;
            fours.push((stars.clone(), good));
            fours.push((stars, [9, 9, 9, 9])); // a value comes before a place
        }
    }
    for (xs, ys) in [(4, 3), (3, 4), (0, 4), (4, 0), (5, 4), (4, 5), (3, 3), (2, 2), (1, 1), (0, 0)]
    {
        fours.push((Stars::counted(xs, ys), good));
        let mut stars = Stars::counted(xs, ys);
        stars.xs.iter_mut().for_each(|x| *x = f64::NAN);
        fours.push((stars, [9, 0, 0, 0])); // lengths come before a value
    }
    let full = (Stars::counted(100, 100), [0, 99, 50, 98]);
    let after = (Stars::counted(100, 100), [0, 100, 50, 98]);
    let long = |xs, ys| (Stars::counted(xs, ys), good);
    let mut bad = long(101, 0);
    bad.0.xs[100] = f64::NAN; // a count comes before all others
    let long = [full, bad, long(0, 101), after, long(101, 101), long(101, 100), long(100, 101)];
    fours.extend(long.into_iter().step_by(every.min(2)));
    fours
}

/// The 24 orders of four places.
fn orders(places: [u8; 4]) -> Vec<[u8; 4]> {
    let mut orders = Vec::new();
    for a in 0..4 {
        for b in (0..4).filter(|&b| b != a) {
            for c in (0..4).filter(|&c| c != a && c != b) {
                let d = 6 - a - b - c;
                orders.push([a, b, c, d].map(|place| places[place]));
            }
        }
    }
    orders
}

fn random_four(random: &mut Random) -> (Stars, [u8; 4]) {
    let n = random.one_of(&[4, 4, 4, 5, 6, 9]);
    let stars = stars::random_or_bad(random, n);
    let mut places = [(); 4].map(|()| random.below(n as u64) as u8);
    if random.below(4) > 0 {
        let mut all: Vec<u8> = (0..n as u8).collect();
        places = [(); 4].map(|()| all.swap_remove(random.below(all.len() as u64) as usize));
    }
    if random.below(40) == 0 {
        places[random.below(4) as usize] = random.one_of(&[n as u8, n as u8 + 1, 255]);
    }
    (stars, places)
}

// ---- orient_spine

const ORIENT_SPINE: Call = Call {
    name: "orient_spine",
    takes: &[
        Kind::Float, // x, y and place of a star
        Kind::Float,
        Kind::Number,
        Kind::Float, // and of another
        Kind::Float,
        Kind::Number,
        Kind::Number, // the length of the output
    ],
    edges: |every| {
        let places = [(0, 1), (1, 0), (5, 5), (0, 255), (255, 0), (99, 100), (7, 3)];
        let rooms = [2, 2, 3, 0, 2, 1, 2, 6, 2, 2, 2];
        let mut cases = Vec::new();
        for coordinates in all_of_four(&COORDINATES) {
            let (a, b) = places[cases.len() % places.len()];
            let room = rooms[cases.len() % rooms.len()];
            cases.push(orient_case(coordinates, a, b, room));
        }
        cases.into_iter().step_by(2 * every - 1).collect()
    },
    random: |random| {
        let stars = stars::random_or_bad(random, 2);
        let at = |list: &[f64], place| list.get(place).copied().unwrap_or(f64::NAN);
        let [ax, bx] = [0, 1].map(|place| at(&stars.xs, place));
        let [ay, by] = [0, 1].map(|place| at(&stars.ys, place));
        let [a, b] = [(); 2].map(|()| random.below(256) as u8);
        let b = if random.below(5) == 0 { a } else { b };
        orient_case([ax, ay, bx, by], a, b, random.one_of(&[2, 2, 2, 2, 3, 5, 1, 0]))
    },
    count: 400_000,
    theirs: |case| orient_spine(case, theirs::quad::orient_spine),
    ours: |case| orient_spine(case, ours::orient_spine),
};

/// Coordinates that are equal, nearly so, at the limit and past it.
const COORDINATES: [f64; 10] = [
    0.0,
    -0.0,
    1.0,
    1.0f64.next_up(),
    5e-324,
    FURTHEST,
    -FURTHEST,
    FURTHEST.next_up(),
    f64::NEG_INFINITY,
    f64::NAN,
];

fn all_of_four(values: &[f64]) -> impl Iterator<Item = [f64; 4]> {
    let n = values.len();
    (0..n.pow(4)).map(move |i| [i / n.pow(3), i / n.pow(2), i / n, i].map(|i| values[i % n]))
}

fn orient_case([ax, ay, bx, by]: [f64; 4], a: u8, b: u8, room: usize) -> Case {
    let first = Case::new().float(ax).float(ay).number(a);
    first.float(bx).float(by).number(b).number(room as u64)
}

type OrientSpine = fn((f64, f64, u8), (f64, f64, u8), &mut [u8]) -> u32;

fn orient_spine(case: &Case, by: OrientSpine) -> Answer {
    let star = |at: usize| (case.float_at(at), case.float_at(at + 1), case.number_at(at + 2));
    let mut pair = lent(BYTE, case.number_at(6));
    let number = by(star(0), star(3), &mut pair);
    Answer::new().number(number).numbers(&pair)
}

// ---- normalize_quad_ordered

const NORMALIZE_QUAD_ORDERED: Call = Call {
    name: "normalize_quad_ordered",
    takes: &[
        Kind::Floats, // xs
        Kind::Floats, // ys
        Kind::Number, // four places
        Kind::Number,
        Kind::Number,
        Kind::Number,
        Kind::Number, // the lengths of the hash
        Kind::Number, // and of the places
    ],
    edges: |every| {
        let roomy = fours(every).into_iter().map(|(stars, quad)| normal_case(&stars, quad, (4, 4)));
        let shortest = stars::least_scales().into_iter().flat_map(|stars| {
            let quads = [[0, 1, 2, 3], [1, 0, 4, 2], [0, 1, 3, 3]];
            quads.map(|quad| normal_case(&stars, quad, (4, 4)))
        });
        let rooms = [(4, 4), (0, 4), (4, 0), (3, 4), (4, 3), (3, 3), (5, 9), (9, 5), (0, 0)];
        let lacking = rooms.into_iter().flat_map(|rooms| {
            let quads = [[0, 3, 1, 2], [3, 0, 2, 1], [1, 1, 2, 3], [0, 4, 1, 2]];
            quads.map(|quad| normal_case(&Stars::square(), quad, rooms))
        });
        roomy.chain(shortest).chain(lacking).collect()
    },
    random: |random| {
        let (stars, quad) = random_four(random);
        let rooms = [(); 2].map(|()| random.one_of(&ROOMS_OF_FOUR));
        normal_case(&stars, quad, rooms.into())
    },
    count: 400_000,
    theirs: |case| normalize_quad_ordered(case, theirs::quad::normalize_quad_ordered),
    ours: |case| normalize_quad_ordered(case, ours::normalize_quad_ordered),
};

fn normal_case(stars: &Stars, quad: [u8; 4], (hash, places): (usize, usize)) -> Case {
    four_case(stars, quad).number(hash as u64).number(places as u64)
}

type NormalizeQuad = fn(&[f64], &[f64], [u8; 4], &mut [f64], &mut [u8]) -> u32;

fn normalize_quad_ordered(case: &Case, by: NormalizeQuad) -> Answer {
    let mut hash = lent(FLOAT, case.number_at(6));
    let mut places = lent(BYTE, case.number_at(7));
    let quad = bytes_at(case, [2, 3, 4, 5]);
    let number = by(case.floats_at(0), case.floats_at(1), quad, &mut hash, &mut places);
    Answer::new().number(number).floats(&hash).numbers(&places)
}

// ---- combinations_4

const COMBINATIONS_4: Call = Call {
    name: "combinations_4",
    takes: &[
        Kind::Number, // n
        Kind::Number, // the length of the output
    ],
    edges: |_| {
        let with = |n: u32| [5, 0, 4, 6, 9].map(|room: u64| Case::new().number(n).number(room));
        COUNTS.into_iter().flat_map(with).collect()
    },
    random: |random| Case::new().number(random.below(120)).number(random.below(8)),
    count: 10_000,
    theirs: |case| combinations_4(case, theirs::quad::combinations_4),
    ours: |case| combinations_4(case, ours::combinations_4),
};

/// Numbers of places, also past the limit.
const COUNTS: [u32; 16] = [0, 1, 2, 3, 4, 5, 6, 11, 24, 99, 100, 101, 255, 256, 260, 4_294_967_295];

fn combinations_4(case: &Case, by: fn(u32, &mut [u8]) -> u32) -> Answer {
    let mut state = lent(BYTE, case.number_at(1));
    let number = by(case.number_at(0), &mut state);
    Answer::new().number(number).numbers(&state)
}

// ---- combinations_4_next

const COMBINATIONS_4_NEXT: Call = Call {
    name: "combinations_4_next",
    takes: &[
        Kind::Number,  // n
        Kind::Numbers, // the state
        Kind::Number,  // the length of the places
    ],
    edges: |every| {
        let mut cases = Vec::new();
        for n in COUNTS {
            for state in states(n) {
                cases.push(step_case(n, &state, 4));
            }
        }
        let long = walk(24).into_iter().step_by(every * every);
        let walks = walk(5).into_iter().chain(walk(8)).chain(long);
        cases.extend(walks.map(|(n, state)| step_case(n, &state, 4)));
        for room in [0, 3, 5, 9] {
            // a set is left, none is left, the places do not rise, the last byte is no mark
            for state in [[0, 1, 2, 3, 0], [0, 1, 2, 3, 1], [0, 0, 2, 3, 0], [0, 1, 2, 3, 2]] {
                cases.push(step_case(6, &state, room));
                cases.push(step_case(6, &state[..4], room));
                cases.push(step_case(101, &state, room));
            }
        }
        cases
    },
    random: |random| {
        let n = if random.below(3) == 0 { random.below(103) } else { random.below(13) };
        let state = random_state(random, n as u8);
        step_case(n as u32, &state, random.one_of(&ROOMS_OF_FOUR))
    },
    count: 400_000,
    theirs: |case| combinations_4_next(case, theirs::quad::combinations_4_next),
    ours: |case| combinations_4_next(case, ours::combinations_4_next),
};

/// Of each kind: sets that are left, the last one, none left, places that do not rise or are not
/// below n, last bytes that are no marks, and other lengths.
fn states(n: u32) -> Vec<Vec<u8>> {
    let n = n.min(255) as u8;
    let [e, f, g, h] = [4, 3, 2, 1].map(|back| n.saturating_sub(back));
    let sets = [
        [0, 1, 2, 3],
        [0, 1, 2, h],
        [0, 1, g, h],
        [0, f, g, h],
        [e, f, g, h],
        [0, 1, 2, n],
        [1, 2, 3, n],
        [0, 0, 1, 2],
        [0, 1, 1, 2],
        [0, 1, 2, 2],
        [1, 0, 2, 3],
        [0, 2, 1, 3],
        [3, 2, 1, 0],
        [0, 0, 0, 0],
        [0, 1, 2, 255],
        [255, 255, 255, 255],
    ];
    let mut states = Vec::new();
    for [a, b, c, d] in sets {
        states.push(vec![a, b, c, d, 0]);
    }
    for [a, b, c, d] in [sets[0], sets[4], sets[13], sets[15], [e + 1, f + 1, g + 1, h + 1]] {
        states.extend([1, 2, 255].map(|done| vec![a, b, c, d, done]));
    }
    states.extend([vec![], vec![0, 1, 2, 3], vec![0, 1, 2, 3, 0, 0], vec![3, 2, 1, 0, 9, 9]]);
    states
}

/// All states from the start to the end.
fn walk(n: u32) -> Vec<(u32, [u8; 5])> {
    let (mut state, mut places, mut given) = ([0; 5], [0; 4], 1);
    theirs::quad::combinations_4(n, &mut state);
    let mut walk = Vec::new();
    while given == 1 {
        walk.push((n, state));
        theirs::quad::combinations_4_next(n, &mut state, &mut places, &mut given);
    }
    walk
}

fn random_state(random: &mut Random, n: u8) -> Vec<u8> {
    let mut state = [0; 5].map(|_: u8| random.below(u64::from(n) + 2) as u8);
    state[4] = random.one_of(&[0, 0, 0, 0, 0, 0, 0, 0, 1, 2]);
    if n >= 4 && random.below(8) > 0 {
        // four rising places; from a chosen one on they are the last ones
        let mut all: Vec<u8> = (0..n).collect();
        let mut set = [(); 4].map(|()| all.swap_remove(random.below(all.len() as u64) as usize));
        set.sort();
        let last = random.below(5) as usize;
        for (place, member) in set.iter_mut().enumerate().skip(last) {
            *member = n - 4 + place as u8;
        }
        state[..4].copy_from_slice(&set);
    }
    let length = random.one_of(&[5, 5, 5, 5, 5, 5, 5, 5, 5, 5, 5, 5, 5, 5, 4, 6]);
    state.into_iter().chain([0]).take(length).collect()
}

fn step_case(n: u32, state: &[u8], room: usize) -> Case {
    Case::new().number(n).numbers(state).number(room as u64)
}

fn combinations_4_next(case: &Case, by: fn(u32, &mut [u8], &mut [u8], &mut u8) -> u32) -> Answer {
    let mut state = case.numbers_at(1);
    let mut places = lent(BYTE, case.number_at(2));
    let mut given = BYTE;
    let number = by(case.number_at(0), &mut state, &mut places, &mut given);
    Answer::new().number(number).numbers(&state).numbers(&places).number(given)
}

// ---- neighbor_quads

const NEIGHBOR_QUADS: Call = Call {
    name: "neighbor_quads",
    takes: &[
        Kind::Floats, // xs
        Kind::Floats, // ys
        Kind::Number, // k
        Kind::Float,  // the least squared spine
        Kind::Number, // the lengths of the places
        Kind::Number, // and of the hashes
    ],
    edges: |every| {
        let mut cases = Vec::new();
        for stars in stars::figures().into_iter().chain(stars::least_scales()) {
            for k in 0..=11 {
                for least in leasts(&stars) {
                    let exact = room_for(&stars, k, least);
                    // a stored answer is written out whole
                    if every == 1 || exact <= 200 {
                        let rooms = rooms_of(exact);
                        cases.extend(rooms.map(|rooms| quads_case(&stars, k, least, rooms)));
                    }
                }
            }
        }
        let mut cases: Vec<Case> = cases.into_iter().step_by(every * 5 - 4).collect();
        let circle = stars::figures().into_iter().max_by_key(|stars| stars.xs.len()).unwrap();
        let most = room_for(&circle, 10, 0.0);
        cases.push(quads_case(&circle, 10, 0.0, (most + 3, most + 1)));
        // places above 63 and neighbours on both sides of it
        let full = Stars::counted(100, 100);
        let exact = room_for(&full, 4, 0.0);
        cases.push(quads_case(&full, 4, 0.0, (exact, exact)));
        for least in BAD_LEASTS {
            cases.push(quads_case(&Stars::square(), 3, least, (8, 8)));
            cases.push(quads_case(&Stars::counted(4, 5), 3, least, (8, 8)));
            cases.push(quads_case(&Stars::square(), 11, least, (8, 8)));
        }
        for k in [11, 12, 100, 256, 4_294_967_295] {
            cases.push(quads_case(&Stars::square(), k, 0.0, (8, 8)));
        }
        for (stars, _) in fours(every).into_iter().filter(|(stars, _)| refused(stars)) {
            cases.push(quads_case(&stars, 3, 0.0, (5, 5)));
        }
        cases
    },
    random: |random| {
        let n = if random.below(4) == 0 { random.below(15) } else { 4 + random.below(4) };
        let stars = stars::random_or_bad(random, n as usize);
        let k = random.below(12) as u32;
        let least = random_least(random, &stars);
        let exact = room_for(&stars, k, least);
        let rooms = random.one_of(&rooms_of(exact));
        let rooms = if random.below(2) == 0 { (exact, exact) } else { rooms };
        quads_case(&stars, k, least, rooms)
    },
    count: 200_000,
    theirs: |case| neighbor_quads(case, theirs::quad::neighbor_quads),
    ours: |case| neighbor_quads(case, ours::neighbor_quads),
};

/// Lists as long as they may be, with as many neighbours: a half of them with room for as many
/// quads, the others with just enough, or one place too few in either list.
const WHOLE_LISTS: Call = Call {
    name: "neighbor_quads: 100 stars",
    edges: |_| Vec::new(),
    random: |random| {
        let stars = stars::random(random, 100);
        long_case(random, &stars, 10)
    },
    count: 1_200,
    ..NEIGHBOR_QUADS
};

/// Lists of 15 stars and more, with any number of neighbours.
const LONGER_LISTS: Call = Call {
    name: "neighbor_quads: 15 to 100",
    edges: |_| Vec::new(),
    random: |random| {
        let n = 15 + random.below(86) as usize;
        let stars = stars::random(random, n);
        let k = random.below(11) as u32;
        long_case(random, &stars, k)
    },
    count: 4_000,
    ..NEIGHBOR_QUADS
};

fn long_case(random: &mut Random, stars: &Stars, k: u32) -> Case {
    let least = random_least(random, stars);
    let ample = (MOST_ROOM, MOST_ROOM);
    let rooms = match random.below(2) {
        0 => ample,
        _ => random.one_of(&rooms_of(room_for(stars, k, least))),
    };
    quads_case(stars, k, least, rooms)
}

/// The room for the most quads that a list can have.
const MOST_ROOM: usize = 4 * 12_000;

/// What is no least spine.
const BAD_LEASTS: [f64; 5] = [f64::NAN, f64::INFINITY, f64::NEG_INFINITY, -5e-324, -1.0];

/// Zeros, the greatest float, and what spines of the list have, with their neighbours.
fn leasts(stars: &Stars) -> Vec<f64> {
    let mut leasts = vec![0.0, -0.0, 1e-30, f64::MAX];
    let n = stars.xs.len();
    if n > 1 {
        let spines = [stars.squared(0, 1), stars.squared(0, n - 1)];
        leasts.extend(spines.into_iter().flat_map(edges::around).filter(|&least| least >= 0.0));
    }
    leasts
}

fn random_least(random: &mut Random, stars: &Stars) -> f64 {
    let n = stars.xs.len().min(stars.ys.len()) as u64;
    match random.below(40) {
        0 => random.one_of(&BAD_LEASTS),
        1..8 => random.one_of(&[-0.0, 1e-30, f64::MAX, 5e-324]),
        8..24 if n > 0 => {
            let [a, b] = [(); 2].map(|()| random.below(n) as usize);
            random.near(stars.squared(a, b), 1)
        }
        _ => 0.0,
    }
}

/// How many places the quads take; 0 where they are refused.
fn room_for(stars: &Stars, k: u32, least: f64) -> usize {
    let (mut places, mut hashes, mut quads) = (lent(BYTE, MOST_ROOM), lent(FLOAT, MOST_ROOM), 0);
    let (xs, ys) = (&stars.xs, &stars.ys);
    theirs::quad::neighbor_quads(xs, ys, k, least, &mut places, &mut hashes, &mut quads);
    4 * quads as usize
}

/// As long as needed, and one too short or longer.
fn rooms_of(exact: usize) -> [(usize, usize); 5] {
    let short = exact.saturating_sub(1);
    [(exact, exact), (short, exact), (exact, short), (exact + 5, exact + 2), (exact + 1, short)]
}

fn refused(stars: &Stars) -> bool {
    let (mut places, mut hashes, mut quads) = (lent(BYTE, MOST_ROOM), lent(FLOAT, MOST_ROOM), 0);
    let (xs, ys) = (&stars.xs, &stars.ys);
    theirs::quad::neighbor_quads(xs, ys, 0, 0.0, &mut places, &mut hashes, &mut quads) != 0
}

fn quads_case(stars: &Stars, k: u32, least: f64, (places, hashes): (usize, usize)) -> Case {
    let lists = Case::new().floats(&stars.xs).floats(&stars.ys);
    lists.number(k).float(least).number(places as u64).number(hashes as u64)
}

type NeighborQuads = fn(&[f64], &[f64], u32, f64, &mut [u8], &mut [f64], &mut u64) -> u32;

fn neighbor_quads(case: &Case, by: NeighborQuads) -> Answer {
    let (xs, ys) = (case.floats_at(0), case.floats_at(1));
    let mut places = lent(BYTE, case.number_at(4));
    let mut hashes = lent(FLOAT, case.number_at(5));
    let mut quads = WORD;
    let least = case.float_at(3);
    let number = by(xs, ys, case.number_at(2), least, &mut places, &mut hashes, &mut quads);
    Answer::new().number(number).numbers(&places).floats(&hashes).number(quads)
}

// ---- discrete_hash_key

const DISCRETE_HASH_KEY: Call = Call {
    name: "discrete_hash_key",
    takes: &[Kind::Float; 4],
    edges: |every| hashes(every).into_iter().map(hash_case).collect(),
    random: |random| hash_case(random_hash(random)),
    count: 1_000_000,
    theirs: |case| Answer::new().number(theirs::quad::discrete_hash_key(hash_at(case))),
    ours: |case| Answer::new().number(ours::discrete_hash_key(hash_at(case))),
};

fn hash_case(hash: [f64; 4]) -> Case {
    hash.into_iter().fold(Case::new(), Case::float)
}

fn hash_at(case: &Case) -> [f64; 4] {
    [0, 1, 2, 3].map(|place| case.float_at(place))
}

/// Each number at the edges, in each of the four places in turn.
fn hashes(every: usize) -> Vec<[f64; 4]> {
    // where a lane is 0 or 65535, and where its sum with 500 wraps at 32 bits
    let turns = [-5.0, -5.01, 650.35, 650.36, 21_474_831.47, 21_474_831.48, 21_474_831.49];
    let numbers: Vec<f64> = edges::specials()
        .into_iter()
        .chain(turns.into_iter().flat_map(edges::around))
        .chain(edges::hash_numbers(every))
        .collect();
    let at = |place: usize| numbers[place % numbers.len()];
    (0..numbers.len()).map(|place| [0, 7, 19, 31].map(|apart| at(place + apart))).collect()
}

fn random_hash(random: &mut Random) -> [f64; 4] {
    let style = random.below(5);
    [(); 4].map(|()| {
        let hundredth = random.between(-700.0, 700.0).round() / 100.0;
        let end = random_end(random);
        match style {
            0 => random.pattern(),
            1 => random.between(-7.0, 7.0),
            2 => random.between(-2.2e7, 2.2e7),
            3 => random.near(hundredth, 2),
            _ => random.near(end, 3),
        }
    })
}

/// 100 times it is an end of the i32 range, or nearer to zero by as much as 501.
fn random_end(random: &mut Random) -> f64 {
    let end = (2_147_483_649.0 - random.below(502) as f64) / 100.0;
    random.signed(end)
}

// ---- discrete_hash_key_neighbors

const DISCRETE_HASH_KEY_NEIGHBORS: Call = Call {
    name: "discrete_hash_key_neighbors",
    takes: &[
        Kind::Float, // a hash
        Kind::Float,
        Kind::Float,
        Kind::Float,
        Kind::Number, // the length of the output
    ],
    edges: |every| {
        let rooms = [81, 81, 81, 82, 90, 80, 81, 81, 0];
        let hashes = hashes(every).into_iter().step_by(every).zip(rooms.into_iter().cycle());
        hashes.map(|(hash, room)| keys_case(hash, room)).collect()
    },
    random: |random| keys_case(random_hash(random), random.one_of(&[81, 81, 81, 81, 82, 80, 0])),
    count: 400_000,
    theirs: |case| neighbor_keys(case, theirs::quad::discrete_hash_key_neighbors),
    ours: |case| neighbor_keys(case, ours::discrete_hash_key_neighbors),
};

fn keys_case(hash: [f64; 4], room: usize) -> Case {
    hash_case(hash).number(room as u64)
}

fn neighbor_keys(case: &Case, by: fn([f64; 4], &mut [u64]) -> u32) -> Answer {
    let mut keys = lent(WORD, case.number_at(4));
    let number = by(hash_at(case), &mut keys);
    Answer::new().number(number).numbers(&keys)
}
