//! The index of a catalogue list and the search by it, against the Rust's own and against the plain
//! search: over lists of many kinds, and over random ones that grow.

use std::cell::RefCell;
use std::slice;

use celestial_catalog::query::Quad;
use celestial_solver::match_field;

use super::matching::{Lists, field, quads_of, same_field};
use super::{Row, medians, ratio_of, whole};
use crate::random::Random;
use crate::{ours, theirs};

/// Two lists that are searched, and what they are.
struct Searched {
    what: &'static str,
    image: Lists,
    catalogue: Lists,
}

const HEADS: [&str; 11] = [
    "lists",
    "quads",
    "matches",
    "the Rust's index, ns",
    "its search, ns",
    "index, ns",
    "search, ns",
    "plain search, ns",
    "both / the Rust's both",
    "search / the Rust's",
    "both / plain",
];

/// The lines of two tables.
pub fn tables(random: &mut Random) -> Vec<String> {
    let mut lines = table(&kinds(random));
    lines.push(String::new());
    lines.extend(table(&growing(random)));
    lines
}

fn table(searched: &[Searched]) -> Vec<String> {
    let head = format!("| {} |", HEADS.join(" | "));
    let mut lines = vec![head, format!("|---|{}", "--:|".repeat(HEADS.len() - 1))];
    lines.extend(searched.iter().map(line));
    lines
}

fn line(searched: &Searched) -> String {
    let rows = medians(&rows(&searched.image, &searched.catalogue));
    let [index, rust_index, search, rust_search, plain] =
        [0, 1, 2, 3, 4].map(|place| rows[place][0].expect("each is timed"));
    let [image, catalogue] =
        [&searched.image, &searched.catalogue].map(|(places, _)| whole((places.len() / 4) as f64));
    let found = found(&searched.image, &searched.catalogue);
    let both = index + search;
    let ratios = [both / (rust_index + rust_search), search / rust_search, both / plain];
    let mut cells = vec![searched.what.to_string(), format!("{image} x {catalogue}")];
    cells.push(whole(found as f64));
    cells.extend([rust_index, rust_search, index, search, plain].map(whole));
    cells.extend(ratios.map(ratio_of));
    format!("| {} |", cells.join(" | "))
}

/// The index, the Rust's, the search by it, the Rust's, and the plain search.
pub fn rows(image: &Lists, catalogue: &Lists) -> Vec<Row> {
    let [index, search] = our_rows(image, catalogue);
    let [rust_index, rust_search] = rust_rows(image, catalogue);
    vec![index, rust_index, search, rust_search, plain_row(image, catalogue)]
}

const INDEX: &str = "index of 7,300";
const SEARCH: &str = "matches of 7,300 x 7,300 by it";

fn our_rows(image: &Lists, catalogue: &Lists) -> [Row; 2] {
    let mut table = vec![0; catalogue.1.len() / 2];
    let lent = RefCell::new(table.clone());
    ours::matching::build_hash_index(&catalogue.1, &mut table);
    let output = RefCell::new(vec![0; 8 * found(image, catalogue)]);
    [
        Row::over(INDEX, "Moorspindle", slice::from_ref(&catalogue.1), move |hashes| {
            ours::matching::build_hash_index(hashes, &mut lent.borrow_mut())
        })
        .of("build_hash_index"),
        Row::over(SEARCH, "Moorspindle", &both(image, catalogue), move |[image, catalogue]| {
            let (image, catalogue, mut found) = (quads_of(image), quads_of(catalogue), 0);
            let matches = &mut output.borrow_mut();
            ours::matching::find_matches_indexed(image, catalogue, &table, matches, &mut found);
            found
        })
        .of("find_matches_indexed"),
    ]
}

fn rust_rows(image: &Lists, catalogue: &Lists) -> [Row; 2] {
    let [image, catalogue] = quads(image, catalogue);
    let index = match_field::build_hash_index(&catalogue);
    let list = catalogue.clone();
    [
        Row::kept(INDEX, "the Rust", move || match_field::build_hash_index(&list)),
        Row::kept(SEARCH, "the Rust", move || {
            match_field::find_matches(&image, &catalogue, &index)
        }),
    ]
}

fn plain_row(image: &Lists, catalogue: &Lists) -> Row {
    let output = RefCell::new(vec![0; 8 * found(image, catalogue)]);
    Row::over(SEARCH, "the plain search", &both(image, catalogue), move |[image, catalogue]| {
        let (image, catalogue, mut found) = (quads_of(image), quads_of(catalogue), 0);
        ours::matching::find_matches(image, catalogue, &mut output.borrow_mut(), &mut found);
        found
    })
}

/// The one input of a search.
fn both(image: &Lists, catalogue: &Lists) -> [[Lists; 2]; 1] {
    [[image.clone(), catalogue.clone()]]
}

fn quads(image: &Lists, catalogue: &Lists) -> [Vec<Quad>; 2] {
    [image, catalogue].map(|lists| theirs::matching::quads_of(quads_of(lists)))
}

/// How many matches there are.
fn found(image: &Lists, catalogue: &Lists) -> usize {
    let [image, catalogue] = quads(image, catalogue);
    let index = match_field::build_hash_index(&catalogue);
    match_field::find_matches(&image, &catalogue, &index).len()
}

/// Lists as they come from stars, and such as are hard for an index.
fn kinds(random: &mut Random) -> Vec<Searched> {
    let [image, catalogue] = same_field(random);
    let ends = [f64::NAN, f64::INFINITY, f64::NEG_INFINITY, -5.0, -5.01, 650.35];
    vec![
        Searched { what: "two unrelated fields", image: field(random), catalogue: field(random) },
        Searched { what: "the same field, turned and a little off", image, catalogue },
        of("random", random, 12_000, wide),
        of("all equal", random, 1_000, |_| [0.25; 4]),
        of("lanes around 0, one image quad in twelve at an end", random, 7_300, |random| {
            around(random, 0.465)
        }),
        of("nearly every image quad at an end", random, 500, |random| around(random, 0.02)),
        of("NaN, infinities and both ends", random, 300, |random| {
            [(); 4].map(|()| random.one_of(&ends))
        }),
        of("lanes 0 and 1 alike in all", random, 7_300, |random| {
            let [_, _, c, d] = wide(random);
            [0.5, -0.5, c, d]
        }),
    ]
}

fn growing(random: &mut Random) -> Vec<Searched> {
    [1_000, 2_000, 4_000, 8_000, 12_000].map(|n| of("random", random, n, wide)).into()
}

/// Two lists of n quads with hashes of one kind.
fn of(
    what: &'static str,
    random: &mut Random,
    n: usize,
    hash: impl Fn(&mut Random) -> [f64; 4],
) -> Searched {
    let [image, catalogue] = [(); 2].map(|()| {
        let places = (0..4 * n).map(|place| (place % 100) as u8).collect();
        (places, (0..n).flat_map(|_| hash(random)).collect())
    });
    Searched { what, image, catalogue }
}

fn wide(random: &mut Random) -> [f64; 4] {
    [(); 4].map(|()| random.between(-1.0, 1.0))
}

/// Hash numbers by the one with lane 0.
fn around(random: &mut Random, away: f64) -> [f64; 4] {
    [(); 4].map(|()| random.between(-5.0 - away, -5.0 + away))
}

#[cfg(test)]
mod tests {
    use super::*;
    use celestial_catalog::query::discrete_hash_key;

    /// The part of the image quads that have a lane at an end.
    fn at_an_end(searched: &Searched) -> f64 {
        let [image, _] = quads(&searched.image, &searched.catalogue);
        let lanes =
            |quad: &Quad| [0, 16, 32, 48].map(|bit| discrete_hash_key(&quad.hash) >> bit & 0xffff);
        let is_at = |quad: &&Quad| lanes(quad).iter().any(|lane| [0, 0xffff].contains(lane));
        image.iter().filter(is_at).count() as f64 / image.len() as f64
    }

    #[test]
    fn kinds_are_what_they_are_called() {
        let kinds = kinds(&mut Random::new(1, "matching"));
        let found: Vec<usize> = kinds.iter().map(|s| found(&s.image, &s.catalogue)).collect();
        assert!((20..300).contains(&found[0]) && (5_000..8_000).contains(&found[1]));
        assert_eq!(found[3], 1_000_000);
        assert!((1.0 / 13.0..1.0 / 11.0).contains(&at_an_end(&kinds[4])));
        assert!(at_an_end(&kinds[5]) > 0.9 && (35_000..42_000).contains(&found[5]));
        assert!((5_000..6_500).contains(&found[6]) && found[7] > 10_000);
        for inner in [0, 1, 2, 3, 7] {
            assert_eq!(at_an_end(&kinds[inner]), 0.0);
        }
    }
}
