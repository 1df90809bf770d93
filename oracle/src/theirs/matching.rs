//! hash_index.rs, aggregate.rs and verify.rs behind Moorspindle's signatures.

use celestial_catalog::query::{self, ConeSearchResult, Quad, QuadStar, StarRecord};
use celestial_solver::detect::DetectedStar;
use celestial_solver::match_field::{self, QuadMatch, StarPair};

use super::rows::{few_and_even, rows_of};
use super::{COUNT, DEGENERATE, INDEX, LENGTHS, PLACE, ROOM, VALUE};
use super::{Tested, is_finite, is_limit, is_position, is_snr, number, put, refuse};
use crate::case::bits;
use crate::ours::matching::{Pairs, Quads, Rows, Voters};

const MOST_QUADS: usize = 12_000;
const MOST_MATCHES: usize = 144_000_000;
const MOST: usize = 100; // rows, detections, ids, results

pub fn find_matches(image: Quads, catalogue: Quads, matches: &mut [u8], found: &mut u64) -> u32 {
    number(|| {
        test_quads(image, catalogue)?;
        put_matches(image, catalogue, matches, found)
    })
}

/// The Rust has no table: one is held to what `index_of` says of it.
pub fn find_matches_indexed(
    image: Quads,
    catalogue: Quads,
    table: &[u64],
    matches: &mut [u8],
    found: &mut u64,
) -> u32 {
    number(|| {
        test_quads(image, catalogue)?;
        refuse(INDEX, !table.starts_with(&index_of(catalogue.hashes)))?;
        put_matches(image, catalogue, matches, found)
    })
}

pub fn build_hash_index(hashes: &[f64], table: &mut [u64]) -> u32 {
    number(|| {
        refuse(COUNT, hashes.len() / 4 > MOST_QUADS)?;
        refuse(LENGTHS, hashes.len() % 4 != 0)?;
        let index = index_of(hashes);
        refuse(ROOM, table.len() < index.len())?;
        put(table, &index);
        Ok(())
    })
}

/// The turned keys of the quads, rising, and of equal ones that of the smaller place first; and
/// then the places in that order.
pub fn index_of(hashes: &[f64]) -> Vec<u64> {
    let key = |hash: &[f64]| turned(query::discrete_hash_key(&[0, 1, 2, 3].map(|i| hash[i])));
    let mut entries: Vec<(u64, u64)> = hashes.chunks_exact(4).map(key).zip(0..).collect();
    entries.sort_unstable();
    let keys = entries.iter().map(|entry| entry.0);
    keys.chain(entries.iter().map(|entry| entry.1)).collect()
}

/// A key with its four lanes in the other order.
fn turned(key: u64) -> u64 {
    (0..4).fold(0, |turned, lane| turned << 16 | key >> (16 * lane) & 0xffff)
}

fn test_quads(image: Quads, catalogue: Quads) -> Tested<()> {
    let lists = [image, catalogue].map(|quads| [quads.places.len(), quads.hashes.len()]);
    refuse(COUNT, lists.concat().into_iter().any(|length| length / 4 > MOST_QUADS))?;
    refuse(LENGTHS, lists.iter().any(|[a, b]| a != b || a % 4 != 0))
}

fn put_matches(image: Quads, catalogue: Quads, matches: &mut [u8], found: &mut u64) -> Tested<()> {
    let all = all_matches(image, catalogue);
    refuse(ROOM, matches.len() < 8 * all.len())?;
    for (place, found) in matches.chunks_exact_mut(8).zip(&all) {
        put(place, &eight(found));
    }
    *found = all.len() as u64;
    Ok(())
}

/// The Rust's own way: an index, and the search by it.
fn all_matches(image: Quads, catalogue: Quads) -> Vec<QuadMatch> {
    let (image, catalogue) = (quads_of(image), quads_of(catalogue));
    let index = match_field::build_hash_index(&catalogue);
    match_field::find_matches(&image, &catalogue, &index)
}

pub fn quads_of(quads: Quads) -> Vec<Quad> {
    let quad = |(places, hash): (&[u8], &[f64])| Quad {
        star_indices: [0, 1, 2, 3].map(|i| usize::from(places[i])),
        hash: [0, 1, 2, 3].map(|i| hash[i]),
    };
    quads.places.chunks_exact(4).zip(quads.hashes.chunks_exact(4)).map(quad).collect()
}

fn eight(found: &QuadMatch) -> [u8; 8] {
    let [a, b] = [&found.image_quad, &found.catalog_quad].map(|quad| quad.star_indices);
    [a[0], a[1], a[2], a[3], b[0], b[1], b[2], b[3]].map(|place| place as u8)
}

pub fn extract_pairs(matches: &[u8], voters: Voters, out: &mut Pairs, pairs: &mut u64) -> u32 {
    number(|| {
        test_voters(matches, voters)?;
        let matches = matches_of(matches);
        refuse(PLACE, names_missing(&matches, voters))?;
        let found = in_order(&matches, voters);
        refuse(ROOM, out.room() < found.len())?;
        for (place, pair) in found.iter().enumerate() {
            out.px_x[place] = pair.px_x;
            out.px_y[place] = pair.px_y;
            out.ra[place] = pair.ra_deg;
            out.dec[place] = pair.dec_deg;
            out.votes[place] = pair.votes as u32;
            out.snr[place] = pair.snr;
        }
        *pairs = found.len() as u64;
        Ok(())
    })
}

impl Pairs {
    /// How many pairs there is room for.
    fn room(&self) -> usize {
        let lengths = [&self.px_x, &self.px_y, &self.ra, &self.dec, &self.snr].map(Vec::len);
        lengths.into_iter().fold(self.votes.len(), usize::min)
    }
}

fn test_voters(matches: &[u8], v: Voters) -> Tested<()> {
    let detections = [v.det_x, v.det_y, v.det_snr].map(<[f64]>::len);
    let results = [v.result_ids.len(), v.result_ra.len(), v.result_dec.len()];
    let ids = [v.image_ids.len(), v.catalogue_ids.len()];
    let counts = detections.iter().chain(&results).chain(&ids);
    refuse(COUNT, matches.len() / 8 > MOST_MATCHES || counts.into_iter().any(|&n| n > MOST))?;
    let uneven = |[a, b, c]: [usize; 3]| a != b || a != c;
    refuse(LENGTHS, matches.len() % 8 != 0 || uneven(detections) || uneven(results))?;
    let positions = [v.det_x, v.det_y, v.result_ra, v.result_dec].concat();
    let outside = positions.into_iter().any(|x| !is_position(x));
    refuse(VALUE, outside || v.det_snr.iter().any(|&x| !is_snr(x)))
}

pub fn matches_of(matches: &[u8]) -> Vec<QuadMatch> {
    let quad = |places: &[u8]| Quad {
        star_indices: [0, 1, 2, 3].map(|i| usize::from(places[i])),
        hash: [0.0; 4],
    };
    let found =
        |eight: &[u8]| QuadMatch { image_quad: quad(&eight[..4]), catalog_quad: quad(&eight[4..]) };
    matches.chunks_exact(8).map(found).collect()
}

/// A vote that counts names a detection that does not exist: there the Rust panics.
fn names_missing(matches: &[QuadMatch], v: Voters) -> bool {
    let mut votes = matches.iter().flat_map(|found| {
        let places = found.image_quad.star_indices.into_iter();
        places.zip(found.catalog_quad.star_indices)
    });
    votes.any(|(image, catalogue)| {
        let id = v.catalogue_ids.get(catalogue);
        let placed = id.is_some_and(|id| v.result_ids.contains(id));
        placed && v.image_ids.get(image).is_some_and(|&id| id as usize >= v.det_x.len())
    })
}

/// The Rust's pairs. It leaves those with as many votes in the order of a hash map; here they
/// stand by the image id, which a second run tells, whose detections are marked by their place.
fn in_order(matches: &[QuadMatch], v: Voters) -> Vec<StarPair> {
    let mut found = asked(matches, v, |place| (v.det_x[place], v.det_y[place], v.det_snr[place]));
    let mut marked = asked(matches, v, |place| (place as f64, 0.0, 0.0));
    assert!(found.is_sorted_by_key(|pair| std::cmp::Reverse(pair.votes)));
    marked.sort_by_key(|pair| (std::cmp::Reverse(pair.votes), pair.px_x as usize));
    let ordered = marked.iter().map(|mark| {
        let place = mark.px_x as usize;
        let same = |pair: &StarPair| {
            let numbers = [pair.px_x, pair.px_y, pair.snr, pair.ra_deg, pair.dec_deg].map(bits);
            let mut wanted = [v.det_x[place], v.det_y[place], v.det_snr[place], 0.0, 0.0];
            (wanted[3], wanted[4]) = (mark.ra_deg, mark.dec_deg);
            pair.votes == mark.votes && numbers == wanted.map(bits)
        };
        found.swap_remove(found.iter().position(same).expect("both runs give the same pairs"))
    });
    let ordered = ordered.collect();
    assert!(found.is_empty());
    ordered
}

fn asked(
    matches: &[QuadMatch],
    v: Voters,
    detection: impl Fn(usize) -> (f64, f64, f64),
) -> Vec<StarPair> {
    let detected: Vec<DetectedStar> =
        (0..v.det_x.len()).map(detection).map(|(x, y, snr)| DetectedStar { x, y, snr }).collect();
    let (image, catalogue, results) = voters_of(v);
    match_field::extract_pairs(matches, &detected, &image, &catalogue, &results)
}

/// The image stars, the catalogue stars and the catalogue's results.
pub fn voters_of(v: Voters) -> (Vec<QuadStar>, Vec<QuadStar>, Vec<ConeSearchResult>) {
    let star = |source_id| QuadStar { source_id, x: 0.0, y: 0.0, mag: 0.0 };
    let places = v.result_ra.iter().zip(v.result_dec);
    let result = |(&source_id, (&ra_deg, &dec_deg))| ConeSearchResult {
        star: StarRecord { source_id, mag: 0.0 },
        ra_deg,
        dec_deg,
    };
    (
        v.image_ids.iter().map(|&id| star(i64::from(id))).collect(),
        v.catalogue_ids.iter().map(|&id| star(id)).collect(),
        v.result_ids.iter().zip(places).map(result).collect(),
    )
}

pub fn fit_affine_3pt(rows: Rows, places: [u8; 3], affine: &mut [f64]) -> u32 {
    number(|| {
        let rows = rows_of(rows)?;
        let [a, b, c] = places.map(usize::from);
        refuse(PLACE, [a, b, c].into_iter().any(|place| place >= rows.len()))?;
        refuse(ROOM, affine.len() < 6)?;
        put(affine, &match_field::fit_affine_3pt(&rows, a, b, c).ok_or(DEGENERATE)?);
        Ok(())
    })
}

pub fn count_affine_inliers(rows: Rows, affine: &[f64], threshold: f64, inliers: &mut u64) -> u32 {
    number(|| {
        few_and_even(rows)?;
        let affine: &[f64; 6] = affine.try_into().map_err(|_| LENGTHS)?;
        let outside = affine.iter().any(|&x| !is_finite(x)) || !is_limit(threshold);
        let rows = rows_of(rows)?;
        refuse(VALUE, outside)?;
        *inliers = match_field::count_affine_inliers(&rows, affine, threshold) as u64;
        Ok(())
    })
}

pub fn verify_pairs(rows: Rows, score: &mut u64) -> u32 {
    number(|| {
        *score = match_field::verify_pairs(&rows_of(rows)?) as u64;
        Ok(())
    })
}
