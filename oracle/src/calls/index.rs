//! The index of a catalogue list, and the search by it: with any table, and beside the plain search.

use std::hint::black_box;

use super::Call;
use super::matching::{BYTE, FIND_MATCHES, FindMatches, QuadLists, WORD};
use super::matching::{edge_hashes, lists_case, matches_case, random_hash, room_for, steps_from};
use crate::case::{Answer, Case, Kind};
use crate::ours::matching::Quads;
use crate::random::Random;
use crate::theirs::matching::index_of;
use crate::{ours, theirs};

/// A hash with no lane at an end.
const INNER: [f64; 4] = [0.505, -0.495, 1.005, 0.255];

/// The hash number with lane 0; the one next below has lane 65,535.
const END: f64 = -5.0;

// ---- build_hash_index

pub const BUILD_HASH_INDEX: Call = Call {
    name: "build_hash_index",
    takes: &[
        Kind::Floats, // the hashes of the catalogue quads
        Kind::Number, // the length of the table
    ],
    edges: |every| {
        let edges = edge_hashes(every);
        let mut lists: Vec<Vec<[f64; 4]>> = edges.chunks(5).map(<[_]>::to_vec).collect();
        lists.extend((0..9).map(|n| vec![INNER; n]));
        lists.extend([steps_from(INNER), two_kinds(), around_ends(), near()]);
        let mut cases = Vec::new();
        for (place, hashes) in lists.into_iter().map(|list| list.concat()).enumerate() {
            let exact = hashes.len() / 2;
            let others = [exact + 3, exact.saturating_sub(1), 0];
            let others = others.into_iter().skip(place % 3).step_by(every.div_ceil(12));
            cases.extend([exact].into_iter().chain(others).map(|room| table_case(&hashes, room)));
        }
        for more in 1..4 {
            let hashes = vec![0.5; 8 + more];
            cases.extend([4, 5, 3, 0].map(|room| table_case(&hashes, room)));
        }
        cases
    },
    random: |random| {
        let hashes = random_pair(random, 20)[1].hashes.clone();
        let exact = hashes.len() / 2;
        let room = random.one_of(&[exact, exact, exact + 1, exact + 9, exact.saturating_sub(1)]);
        table_case(&hashes, room)
    },
    count: 200_000,
    theirs: |case| build_hash_index(case, theirs::matching::build_hash_index),
    ours: |case| build_hash_index(case, ours::matching::build_hash_index),
};

/// Lists of up to 12,000 quads and more.
pub const LONG_INDEX: Call = Call {
    name: "build_hash_index: many quads",
    edges: |_| {
        let mut random = Random::new(1, "build_hash_index");
        let wide = shaped(&mut random, &WIDE, 12_001).concat();
        let equal = vec![0.5; 48_000];
        let lists = [&wide[..48_000], &equal, &wide, &wide[..48_003], &wide[..47_999]];
        let rooms = |hashes| [24_000, 23_999, 24_009].map(|room| table_case(hashes, room));
        lists.into_iter().flat_map(rooms).collect()
    },
    random: |random| {
        let n = random.below(12_001) as usize;
        let shape = random_shape(random);
        let hashes = shaped(random, &shape, n).concat();
        table_case(&hashes, 2 * n + 1)
    },
    count: 100,
    ..BUILD_HASH_INDEX
};

fn table_case(hashes: &[f64], room: usize) -> Case {
    Case::new().floats(hashes).number(room as u64)
}

type Build = fn(&[f64], &mut [u64]) -> u32;

fn build_hash_index(case: &Case, by: Build) -> Answer {
    let hashes = case.floats_at(0).to_vec();
    let mut table = vec![WORD; case.number_at(1)];
    let number = by(&hashes, &mut table);
    assert!(table_case(black_box(&hashes), table.len()) == *case, "the hashes were changed");
    Answer::new().number(number).numbers(&table)
}

// ---- find_matches_indexed

pub const FIND_MATCHES_INDEXED: Call = Call {
    name: "find_matches_indexed",
    takes: &[
        Kind::Numbers, // the places of the image quads
        Kind::Floats,  // their hashes
        Kind::Numbers, // the places of the catalogue quads
        Kind::Floats,  // their hashes
        Kind::Ids,     // the words of the table
        Kind::Number,  // the length of the output
    ],
    edges: |every| {
        let mut cases = sound_tables(every);
        cases.extend(unsound_tables(every));
        cases.extend(refused());
        cases
    },
    random: |random| {
        let [image, catalogue] = random_pair(random, 20);
        let exact = room_for(&image, &catalogue).min(4000);
        let room = random.one_of(&[exact, exact, exact, exact + 9, exact.saturating_sub(1)]);
        let table = index_of(&catalogue.hashes);
        let table = if random.below(3) == 0 { damaged(random, &catalogue, table) } else { table };
        indexed_case(&image, &catalogue, &table, room)
    },
    count: 200_000,
    theirs: |case| find_matches_indexed(case, theirs::matching::find_matches_indexed),
    ours: |case| find_matches_indexed(case, ours::matching::find_matches_indexed),
};

/// Lists of 12,000 quads and more, with their table and with another.
pub const LONG_SEARCH: Call = Call {
    name: "find_matches_indexed: many",
    edges: |_| {
        let mut cases = Vec::new();
        let mut random = Random::new(1, "find_matches_indexed");
        let wide = QuadLists::of(&shaped(&mut random, &WIDE, 12_000));
        let [longer, few] = [12_001, 2].map(|n| QuadLists::of(&vec![INNER; n]));
        for (image, catalogue) in [(&wide, &wide), (&few, &wide), (&longer, &few), (&few, &longer)]
        {
            let table = index_of(&catalogue.hashes);
            let mut other = table.clone();
            other.swap(0, 1);
            for table in [table, other] {
                cases.push(indexed_case(image, catalogue, &table, room_for(image, catalogue)));
                cases.push(indexed_case(image, catalogue, &table, 1));
            }
        }
        cases
    },
    random: |_| unreachable!("no random cases"),
    count: 0,
    ..FIND_MATCHES_INDEXED
};

fn indexed_case(image: &QuadLists, catalogue: &QuadLists, table: &[u64], room: usize) -> Case {
    lists_case(image, catalogue).words(table).number(room as u64)
}

type Indexed = fn(Quads, Quads, &[u64], &mut [u8], &mut u64) -> u32;

fn find_matches_indexed(case: &Case, by: Indexed) -> Answer {
    let [image, catalogue] = QuadLists::both(case);
    let table = case.words_at(4);
    let (mut matches, mut found) = (vec![BYTE; case.number_at(5)], WORD);
    let number = by(image.quads(), catalogue.quads(), &table, &mut matches, &mut found);
    let after = indexed_case(black_box(&image), &catalogue, &table, matches.len());
    assert!(after == *case, "what is read was changed");
    Answer::new().number(number).numbers(&matches).number(found)
}

/// The search by the table that the catalogue list has, with just the room that it takes.
fn sound(image: &[[f64; 4]], catalogue: &[[f64; 4]]) -> Case {
    let [image, catalogue] = [image, catalogue].map(QuadLists::of);
    let room = room_for(&image, &catalogue);
    indexed_case(&image, &catalogue, &index_of(&catalogue.hashes), room)
}

fn sound_tables(every: usize) -> Vec<Case> {
    let mut cases = vec![
        sound(&[], &[]),
        sound(&[INNER; 3], &[]),
        sound(&[], &[INNER; 3]),
        sound(&[INNER; 3], &[INNER; 4]),
        sound(&[INNER, INNER.map(|x| x + 7.0), INNER], &two_kinds()),
        sound(&two_kinds(), &two_kinds()),
        sound(&[INNER], &near()),
        sound(&[[END; 4]], &around_ends()),
    ];
    // one lane at an end, and several
    let ends = [-4.995, -5.005, 650.365, 650.355];
    let at_ends = |lanes: usize| ends.map(|end| at_places(INNER, lanes, |_| end));
    let several = (0..16).filter(|lanes: &usize| lanes.count_ones() != 1).flat_map(at_ends);
    let hashes = [1, 2, 4, 8].into_iter().flat_map(at_ends);
    for hash in hashes.chain(several.step_by(every.div_ceil(8))) {
        cases.push(sound(&[hash], &corners(hash)));
    }
    // a lane 0 with so many keys in reach, and with so many of them near
    for (reach, near) in [(63, 0), (64, 27), (65, 27), (66, 40), (64, 64), (65, 65), (66, 66)] {
        cases.push(sound(&[INNER], &crowd(reach, near)));
    }
    for hash in edge_hashes(every).into_iter().step_by(every.div_ceil(12)) {
        let steps = steps_from(hash).into_iter().step_by(every.div_ceil(8));
        cases.push(sound(&[hash], &steps.chain([hash, INNER, hash]).collect::<Vec<_>>()));
    }
    cases
}

/// Tables that are not the list's, and longer ones that are.
fn unsound_tables(every: usize) -> Vec<Case> {
    let mut cases = Vec::new();
    let image = QuadLists::of(&[INNER]);
    let lists = [two_kinds(), steps_from(INNER)[..6].to_vec(), vec![[END; 4]; 3], vec![INNER]];
    for (place, hashes) in lists.iter().enumerate() {
        let catalogue = QuadLists::of(hashes);
        let room = room_for(&image, &catalogue);
        let tables = damages(hashes, every);
        let fewer = if place == 0 { 1 } else { every.div_ceil(8) };
        let tables = tables.iter().step_by(fewer);
        cases.extend(tables.map(|table| indexed_case(&image, &catalogue, table, room)));
    }
    // a place past the list, where the program of the stored cases has zeros
    let zeros = QuadLists::of(&[[0.0; 4]; 2]);
    let mut table = index_of(&zeros.hashes);
    table[3] = 2;
    cases.push(indexed_case(&zeros, &zeros, &table, room_for(&zeros, &zeros)));
    cases
}

/// Tables as they come from that of these hashes by damage of every kind, and longer ones.
fn damages(hashes: &[[f64; 4]], every: usize) -> Vec<Vec<u64>> {
    let (table, n) = (index_of(&hashes.concat()), hashes.len());
    let mut tables = other_tables(hashes);
    let mut edit = |change: &dyn Fn(&mut Vec<u64>)| {
        let mut other = table.clone();
        change(&mut other);
        tables.push(other);
    };
    for bit in (0..64).step_by(every.div_ceil(2)) {
        edit(&|table| table[bit % n] ^= 1 << bit);
        edit(&|table| table[n + bit % n] ^= 1 << (bit * 7 % 64));
    }
    for at in 1..n {
        edit(&|table| table.swap(at - 1, at));
        edit(&|table| table.swap(n + at - 1, n + at));
        edit(&|table| swap_entries(table, n, at - 1, at));
        edit(&|table| copy_entry(table, n, at - 1, at));
        edit(&|table| copy_entry(table, n, at, at - 1));
    }
    edit(&|table| table[n..].rotate_left(1));
    edit(&|table| table[n..].reverse());
    edit(&|table| table[..n].reverse());
    edit(&|table| table[2 * n - 1] = n as u64);
    edit(&|table| table[n] = u64::MAX);
    edit(&|table| table.rotate_left(n));
    edit(&|table| table.fill(0));
    edit(&|table| table.insert(n, WORD));
    for short in [1, 2, n, 2 * n] {
        edit(&|table| table.truncate(2 * n - short));
    }
    for more in [1, 2, 5] {
        edit(&|table| table.extend(vec![WORD; more]));
        edit(&|table| table.extend(vec![0; more]));
    }
    tables
}

/// The tables of other lists: of a quad less or more, in another order, with a hash that is a little
/// away; and that of a quad less in the places that are looked at.
fn other_tables(hashes: &[[f64; 4]]) -> Vec<Vec<u64>> {
    let (first, last) = (hashes[0], hashes.len() - 1);
    let mut lists = vec![hashes[1..].to_vec(), hashes[..last].to_vec()];
    lists.extend([[hashes, &[hashes[last]]].concat(), [&[first], hashes].concat()]);
    lists.push(hashes.iter().rev().copied().collect());
    for place in 0..4 {
        let mut list = hashes.to_vec();
        list[0][place] += 0.01;
        lists.push(list);
    }
    let mut tables: Vec<Vec<u64>> = lists.iter().map(|list| index_of(&list.concat())).collect();
    let longer = [tables[1].clone(), vec![WORD; 2]].concat();
    tables.push(longer);
    tables
}

fn swap_entries(table: &mut [u64], n: usize, a: usize, b: usize) {
    table.swap(a, b);
    table.swap(n + a, n + b);
}

fn copy_entry(table: &mut [u64], n: usize, from: usize, to: usize) {
    table[to] = table[from];
    table[n + to] = table[n + from];
}

/// Each refusal but 1, which takes long lists, and two at once.
fn refused() -> Vec<Case> {
    let mut cases = Vec::new();
    let [image, catalogue] = [&[INNER; 3][..], &two_kinds()].map(QuadLists::of);
    let room = room_for(&image, &catalogue);
    let table = index_of(&catalogue.hashes);
    let mut other = table.clone();
    other[0] ^= 1;
    for table in [&table[..], &other, &table[1..], &[]] {
        for room in [room, room + 3, room - 1, room - 8, 0] {
            cases.push(indexed_case(&image, &catalogue, table, room));
        }
        for uneven in catalogue.uneven() {
            cases.push(indexed_case(&image, &uneven, table, room));
            cases.push(indexed_case(&uneven, &catalogue, table, 0));
        }
    }
    // half a quad more, in both lists
    let mut half = catalogue.clone();
    half.places.extend([1, 2]);
    half.hashes.extend([0.5, 0.5]);
    for table in [&table, &other] {
        cases.push(indexed_case(&image, &half, table, room));
        cases.push(indexed_case(&half, &catalogue, table, room));
    }
    cases
}

// ---- the same lists by both searches

/// The index, the search by it and the plain search: each is to give the Rust's matches.
pub const BESIDE: Call = Call {
    name: "both searches",
    random: |random| {
        let [image, catalogue] = random_pair(random, 20);
        matches_case(&image, &catalogue, room_for(&image, &catalogue) + 1)
    },
    count: 200_000,
    theirs: |case| beside(case, &THEIRS),
    ours: |case| beside(case, &OURS),
    ..FIND_MATCHES
};

/// Ranges of one lane 0 with about as many entries as are walked, and lists of few keys.
pub const CROWDED: Call = Call {
    name: "both searches: crowds",
    edges: |_| {
        let counts = (60..70).flat_map(|reach| [0, 1, 27, reach].map(|near| (reach, near)));
        counts.map(|(reach, near)| beside_case(&[INNER; 2], &crowd(reach, near))).collect()
    },
    random: |random| {
        let [image, catalogue] = random_pair(random, 300);
        matches_case(&image, &catalogue, room_for(&image, &catalogue) + 1)
    },
    count: 2_000,
    ..BESIDE
};

/// Lists of thousands of quads.
pub const MANY: Call = Call {
    name: "both searches: many quads",
    edges: |_| {
        let hash = [0.25, f64::NAN, 1e300, -7.0];
        let quads = |n: usize| QuadLists::of(&vec![hash; n]);
        let few = [(12_000, 1), (1, 12_000), (12_001, 1), (1, 12_001), (12_001, 12_001)];
        let lists = few.map(|(image, catalogue)| [quads(image), quads(catalogue)]);
        let long = quads(12_001).uneven().map(|long| [[long.clone(), quads(1)], [quads(1), long]]);
        let lists = lists.iter().chain(long.as_flattened());
        let cases = lists.flat_map(|[image, catalogue]| {
            [0, 96_000, 96_001].map(|room| matches_case(image, catalogue, room))
        });
        let mut cases: Vec<Case> = cases.collect();
        let mut random = Random::new(1, "12,000");
        let [image, catalogue] = [(); 2].map(|()| shaped(&mut random, &WIDE, 12_000));
        cases.push(beside_case(&image, &catalogue));
        cases
    },
    random: |random| {
        let lanes = [0.02, 0.1, 1.0].map(|wide| (random.one_of(&[0.5, END]), wide));
        let shape = [lanes[2], random.one_of(&lanes), random.one_of(&lanes), lanes[2]];
        let [image, catalogue] = [(); 2].map(|()| {
            let n = 1000 + random.below(2000) as usize;
            shaped(random, &shape, n)
        });
        beside_case(&image, &catalogue)
    },
    count: 300,
    ..BESIDE
};

/// Totals around the places that a search keeps from its count, and a million. A case is the numbers
/// of image quads and of catalogue quads, and in how many kinds these are.
pub const LARGE: Call = Call {
    name: "both searches: 48,000",
    takes: &[Kind::Number, Kind::Number, Kind::Number],
    edges: |_| {
        let around = (190..211).map(|n| (240, n, 1)); // 48,000 is 240 times 200
        let long = [(3, 11_999, 1), (4, 12_000, 1), (5, 12_000, 1), (9, 12_000, 1), (4, 11_999, 1)];
        let exact =
            [(48_000 / 96, 96, 1), (48_000 / 97 + 1, 97, 1), (12_000, 4, 1), (12_000, 5, 1)];
        let mixed = [(700, 700, 7), (701, 700, 7), (2_000, 2_000, 83), (1_100, 1_100, 1)];
        let cases = around.chain(long).chain(exact).chain(mixed);
        cases.map(|(n, m, kinds)| large_case(n, m, kinds)).collect()
    },
    random: |random| {
        let kinds = 1 + random.below(40);
        let n = 300 + random.below(900);
        // about 48,000 of n times m are found
        let m = (48_000 * kinds / n).clamp(1, 11_000) + random.below(40);
        large_case(n, m, kinds)
    },
    count: 300,
    theirs: |case| beside(&large(case), &THEIRS),
    ours: |case| beside(&large(case), &OURS),
};

fn large_case(n: u64, m: u64, kinds: u64) -> Case {
    Case::new().number(n).number(m).number(kinds)
}

/// The lists of such a case: hashes of so many kinds, no kind near to another.
fn large(case: &Case) -> Case {
    let [n, m, kinds] = [0, 1, 2].map(|place| case.number_at::<u64>(place));
    let mut random = Random::new(n * m, "large");
    let mut kind = || {
        let away = random.below(kinds) as f64;
        INNER.map(|x| x + away)
    };
    let [image, catalogue] = [n, m].map(|count| (0..count).map(|_| kind()).collect::<Vec<_>>());
    beside_case(&image, &catalogue)
}

fn beside_case(image: &[[f64; 4]], catalogue: &[[f64; 4]]) -> Case {
    let [image, catalogue] = [image, catalogue].map(QuadLists::of);
    matches_case(&image, &catalogue, room_for(&image, &catalogue) + 1)
}

/// The three calls of one side.
struct Side {
    build: Build,
    indexed: Indexed,
    plain: FindMatches,
}

const OURS: Side = Side {
    build: ours::matching::build_hash_index,
    indexed: ours::matching::find_matches_indexed,
    plain: ours::matching::find_matches,
};

const THEIRS: Side = Side {
    build: theirs::matching::build_hash_index,
    indexed: theirs::matching::find_matches_indexed,
    plain: theirs::matching::find_matches,
};

/// What the three calls answer, the search by the table that was built.
fn beside(case: &Case, side: &Side) -> Answer {
    let [image, catalogue] = QuadLists::both(case);
    let mut table = vec![WORD; catalogue.hashes.len() / 2 + 1];
    let built = (side.build)(&catalogue.hashes, &mut table);
    let answer = Answer::new().number(built).numbers(&table);
    let (mut matches, mut found) = (vec![BYTE; case.number_at(4)], WORD);
    let (image, catalogue) = (image.quads(), catalogue.quads());
    let number = (side.indexed)(image, catalogue, &table, &mut matches, &mut found);
    let answer = answer.number(number).numbers(&matches).number(found);
    let (mut matches, mut found) = (vec![BYTE; case.number_at(4)], WORD);
    let number = (side.plain)(image, catalogue, &mut matches, &mut found);
    answer.number(number).numbers(&matches).number(found)
}

// ---- lists

/// Two hashes in turn, so that each key stands several times.
fn two_kinds() -> Vec<[f64; 4]> {
    (0..5).map(|i| if i % 3 == 1 { INNER } else { INNER.map(|x| x + 0.01) }).collect()
}

/// A quad for each of the 81 near keys, in another order than theirs, and then one that is not near.
fn near() -> Vec<[f64; 4]> {
    let steps = |n: usize| [n / 27, n / 9 % 3, n / 3 % 3, n % 3];
    let hash = |n: usize| {
        let mut hash = INNER;
        for (number, step) in hash.iter_mut().zip(steps(n * 50 % 81)) {
            *number += step as f64 / 100.0 - 0.01;
        }
        hash
    };
    (0..81).map(hash).chain([INNER.map(|x| x - 0.02)]).collect()
}

/// The hash, and those with each number a step of one lane above or below.
fn corners(hash: [f64; 4]) -> Vec<[f64; 4]> {
    let above = hash.map(|x| x + 0.01);
    (0..16).map(|below| at_places(above, below, |x| x - 0.02)).chain([hash]).collect()
}

/// Each number at the one or the other side of the lane's end, or a step away from it.
fn around_ends() -> Vec<[f64; 4]> {
    (0..16)
        .flat_map(|ends| [-0.02, -0.01, 0.01].map(|step| at_places([END; 4], ends, |x| x + step)))
        .collect()
}

/// The numbers at the places whose bit is set, changed.
fn at_places(hash: [f64; 4], bits: usize, change: impl Fn(f64) -> f64) -> [f64; 4] {
    [0, 1, 2, 3].map(|place| if bits >> place & 1 == 1 { change(hash[place]) } else { hash[place] })
}

/// So many quads in reach of the range that `INNER` has in its own lane 0, of which so many are
/// near, all of these by different keys as far as there are any; and some that are out of reach.
fn crowd(reach: usize, near: usize) -> Vec<[f64; 4]> {
    let step = |n: usize| (n % 3) as f64 / 100.0 - 0.01;
    let [a, b, c, d] = INNER;
    let hash = |n: usize| match n < near {
        true => [a, b + step(n / 9), c + step(n / 3), d + step(n)],
        false => [a, b, c + 0.05 + step(n), d - 0.3],
    };
    let outside = [[a, b + 0.02, c, d], [a, b - 0.02, c, d], [a - 0.02, b, c, d]];
    let mut hashes: Vec<_> = (0..reach).map(hash).chain(outside).collect();
    hashes.rotate_left(reach / 2);
    hashes
}

/// For each hash number the middle of a range, and how far it goes to either side.
type Shape = [(f64, f64); 4];

const WIDE: Shape = [(0.0, 1.0); 4];

fn shaped(random: &mut Random, shape: &Shape, n: usize) -> Vec<[f64; 4]> {
    let mut hash = || shape.map(|(middle, away)| random.between(middle - away, middle + away));
    (0..n).map(|_| hash()).collect()
}

fn random_shape(random: &mut Random) -> Shape {
    [(); 4].map(|()| {
        let middle = random.one_of(&[0.5, -0.5, END, END, 650.36]);
        (middle, random.one_of(&[0.0, 0.01, 0.02, 0.05, 0.5]))
    })
}

/// Up to `most` quads in each list, of one shape, or here and there with any hash.
fn random_pair(random: &mut Random, most: u64) -> [QuadLists; 2] {
    let shape = random_shape(random);
    let odd = random.one_of(&[0, 0, 1, 4]);
    [(); 2].map(|()| {
        let n = random.below(most + 1) as usize;
        let mut hashes = shaped(random, &shape, n);
        for _ in 0..odd.min(n) {
            hashes[random.below(n as u64) as usize] = random_hash(random, 0.03);
        }
        let mut quads = QuadLists::of(&hashes);
        quads.places.fill_with(|| random.below(256) as u8);
        match random.below(200) {
            uneven @ 0..3 if n > 0 => quads.uneven()[uneven as usize].clone(),
            _ => quads,
        }
    })
}

/// One of the damaged tables of this list, or one with a random word in it.
fn damaged(random: &mut Random, catalogue: &QuadLists, mut table: Vec<u64>) -> Vec<u64> {
    let hashes: Vec<[f64; 4]> =
        catalogue.hashes.chunks_exact(4).map(|hash| [0, 1, 2, 3].map(|i| hash[i])).collect();
    if hashes.is_empty() {
        return vec![WORD; random.below(3) as usize];
    }
    if random.below(4) == 0 {
        let at = random.below(table.len() as u64) as usize;
        let words = [random.word(), random.below(hashes.len() as u64 + 1), table[at] ^ 1];
        table[at] = random.one_of(&words);
        return table;
    }
    let tables = damages(&hashes, 25);
    tables[random.below(tables.len() as u64) as usize].clone()
}

#[cfg(test)]
mod tests {
    use super::*;

    /// How many entries of the table are in the range of a search for `INNER` in its own lane 0.
    fn in_reach(hashes: &[[f64; 4]]) -> usize {
        let first = index_of(&INNER)[0] - 0x1_0001_0001;
        let keys = &index_of(&hashes.concat())[..hashes.len()];
        keys.iter().filter(|&&key| (first..=first + 0x2_0002_0002).contains(&key)).count()
    }

    #[test]
    fn a_crowd_is_as_large_as_it_says() {
        for (reach, near) in [(63, 0), (64, 27), (65, 65), (66, 40)] {
            let hashes = crowd(reach, near);
            assert_eq!(in_reach(&hashes), reach);
            let found = room_for(&QuadLists::of(&[INNER]), &QuadLists::of(&hashes));
            assert_eq!(found, 8 * near);
        }
    }

    #[test]
    fn all_near_keys_are_there() {
        assert_eq!(room_for(&QuadLists::of(&[INNER]), &QuadLists::of(&near())), 8 * 81);
    }

    #[test]
    fn an_index_stands_by_lane_0_and_then_by_place() {
        let hashes = [[0.0, 0.01, 0.0, 0.0], [-0.01; 4], [0.0, 0.01, 0.0, 0.0], [0.0; 4]];
        let [low, middle, high] =
            [0x01f3_01f3_01f3_01f3, 0x01f4_01f4_01f4_01f4, 0x01f4_01f5_01f4_01f4];
        assert_eq!(index_of(&hashes.concat()), [low, middle, high, high, 1, 3, 0, 2]);
    }

    /// The edges that are stored and the random cases have each answer, and longer tables are taken.
    #[test]
    fn each_answer_is_asked_for() {
        let call = &FIND_MATCHES_INDEXED;
        let mut random = Random::new(1, call.name);
        let drawn = (0..300).map(|_| (call.random)(&mut random)).collect();
        for cases in [(call.edges)(25), drawn] {
            let number = |case: &Case| (call.theirs)(case).number_at::<u32>(0);
            for wanted in [0, 2, 7, 11] {
                assert!(cases.iter().any(|case| number(case) == wanted), "{wanted}");
            }
            let is_longer = |case: &&Case| 2 * case.words_at(4).len() > case.floats_at(3).len();
            assert!(cases.iter().filter(is_longer).any(|case| number(case) == 0));
        }
    }

    /// There are totals below the places that a search keeps, above them, and just as many.
    #[test]
    fn large_cases_are_around_what_is_kept() {
        let mut random = Random::new(1, "large");
        let mut cases = (LARGE.edges)(1);
        cases.extend((0..30).map(|_| (LARGE.random)(&mut random)));
        let totals: Vec<usize> =
            cases.iter().map(|case| large(case).number_at::<usize>(4) / 8).collect();
        assert!(totals.contains(&48_000));
        assert!(totals.iter().filter(|&&n| (40_000..48_000).contains(&n)).count() > 5);
        assert!(totals.iter().filter(|&&n| (48_001..60_000).contains(&n)).count() > 5);
        assert!(totals.iter().any(|&n| n > 1_000_000));
    }
}
