//! quad.rs behind Moorspindle's signatures.

use celestial_catalog::query::{self, Combinations4, QuadStar};

use super::{COUNT, DEGENERATE, LENGTHS, PLACE, ROOM, VALUE};
use super::{Tested, is_limit, is_position, number, put, refuse};

const MOST_STARS: usize = 100;
const MOST_NEIGHBOURS: u32 = 10;

pub fn find_spine(xs: &[f64], ys: &[f64], places: [u8; 4], spine: &mut [u8]) -> u32 {
    number(|| {
        let stars = stars_of(xs, ys)?;
        refuse(PLACE, past_the_end(&stars, places))?;
        refuse(ROOM, spine.len() < 4)?;
        let (a, b, c, d) = query::find_spine(&stars, places.map(usize::from));
        put(spine, &[a, b, c, d].map(byte));
        Ok(())
    })
}

/// Each star is its x, its y and its place.
pub fn orient_spine(a: (f64, f64, u8), b: (f64, f64, u8), pair: &mut [u8]) -> u32 {
    number(|| {
        refuse(VALUE, [a.0, a.1, b.0, b.1].into_iter().any(|x| !is_position(x)))?;
        refuse(ROOM, pair.len() < 2)?;
        let [p, q] = [a, b].map(|(x, y, _)| star(x, y));
        let (first, second) = query::orient_spine(&p, a.2.into(), &q, b.2.into());
        put(pair, &[first, second].map(byte));
        Ok(())
    })
}

pub fn normalize_quad_ordered(
    xs: &[f64],
    ys: &[f64],
    quad: [u8; 4],
    hash: &mut [f64],
    places: &mut [u8],
) -> u32 {
    number(|| {
        let stars = stars_of(xs, ys)?;
        refuse(PLACE, past_the_end(&stars, quad))?;
        refuse(ROOM, hash.len() < 4 || places.len() < 4)?;
        let [a, b, c, d] = quad.map(usize::from);
        let normal = query::normalize_quad_ordered(&stars, a, b, c, d);
        let (numbers, ordered) = normal.ok_or(DEGENERATE)?;
        put(hash, &numbers);
        put(places, &ordered.map(byte));
        Ok(())
    })
}

pub fn combinations_4(n: u32, state: &mut [u8]) -> u32 {
    number(|| {
        refuse(COUNT, n as usize > MOST_STARS)?;
        refuse(ROOM, state.len() < 5)?;
        put(state, &bytes_of(&query::combinations_4(n as usize)));
        Ok(())
    })
}

pub fn combinations_4_next(n: u32, state: &mut [u8], places: &mut [u8], given: &mut u8) -> u32 {
    number(|| {
        refuse(COUNT, n as usize > MOST_STARS)?;
        let &[a, b, c, d, done] = &*state else { return Err(LENGTHS) };
        refuse(VALUE, done > 1)?;
        let rising = a < b && b < c && c < d && u32::from(d) < n;
        refuse(PLACE, done == 0 && !rising)?;
        let current = [a, b, c, d].map(usize::from);
        let mut steps = Combinations4::from_state(n as usize, current, done == 1);
        let Some(set) = steps.next() else {
            *given = 0;
            return Ok(());
        };
        refuse(ROOM, places.len() < 4)?;
        put(places, &set.map(byte));
        put(state, &bytes_of(&steps));
        *given = 1;
        Ok(())
    })
}

pub fn neighbor_quads(
    xs: &[f64],
    ys: &[f64],
    k: u32,
    min_spine_sq: f64,
    places: &mut [u8],
    hashes: &mut [f64],
    quads: &mut u64,
) -> u32 {
    number(|| {
        refuse(COUNT, k > MOST_NEIGHBOURS)?;
        let stars = stars_of(xs, ys)?;
        refuse(VALUE, !is_limit(min_spine_sq))?;
        let found = query::neighbor_quads(&stars, k as usize, min_spine_sq);
        refuse(ROOM, places.len().min(hashes.len()) < 4 * found.len())?;
        for (at, quad) in found.iter().enumerate() {
            put(&mut places[4 * at..], &quad.star_indices.map(byte));
            put(&mut hashes[4 * at..], &quad.hash);
        }
        *quads = found.len() as u64;
        Ok(())
    })
}

pub fn discrete_hash_key(hash: [f64; 4]) -> u64 {
    query::discrete_hash_key(&hash)
}

pub fn discrete_hash_key_neighbors(hash: [f64; 4], keys: &mut [u64]) -> u32 {
    number(|| {
        refuse(ROOM, keys.len() < 81)?;
        put(keys, &query::discrete_hash_key_neighbors(&hash));
        Ok(())
    })
}

pub fn star(x: f64, y: f64) -> QuadStar {
    QuadStar { source_id: 0, x, y, mag: 0.0 }
}

/// The stars of two lists, which must be positions and as many.
fn stars_of(xs: &[f64], ys: &[f64]) -> Tested<Vec<QuadStar>> {
    refuse(COUNT, xs.len() > MOST_STARS || ys.len() > MOST_STARS)?;
    refuse(LENGTHS, xs.len() != ys.len())?;
    refuse(VALUE, xs.iter().chain(ys).any(|&x| !is_position(x)))?;
    Ok(xs.iter().zip(ys).map(|(&x, &y)| star(x, y)).collect())
}

fn past_the_end(stars: &[QuadStar], places: [u8; 4]) -> bool {
    places.into_iter().any(|place| usize::from(place) >= stars.len())
}

/// The state of the combinations in five bytes.
fn bytes_of(steps: &Combinations4) -> [u8; 5] {
    let (current, done) = steps.state();
    let [a, b, c, d] = current.map(byte);
    [a, b, c, d, done.into()]
}

fn byte(place: usize) -> u8 {
    place.try_into().expect("a place fits a byte")
}
