//! Quads: sets of four stars, hashed by their shape.

use std::slice::ChunksExact;

use crate::call::call;
use crate::ffi::*;
use crate::{Result, count, done, size};

/// The most quads that a list of stars gives.
const MOST_QUADS: usize = 12_000;

/// A star and its place in a list.
#[derive(Clone, Copy, Debug, PartialEq)]
pub struct Star {
    pub x: f64,
    pub y: f64,
    pub place: u8,
}

/// Four stars, their spine first, and the numbers that their shape hashes to.
#[derive(Clone, Copy, Debug, PartialEq)]
pub struct Quad {
    pub places: [u8; 4],
    pub hash: [f64; 4],
}

/// A list of quads, four places and four hash numbers to each.
///
/// ```
/// use moorspindle::quad::{Quad, Quads};
///
/// let quad = Quad { places: [0, 3, 1, 2], hash: [0.5, -0.5, 0.5, 0.5] };
/// let quads: Quads = [quad; 3].into_iter().collect();
/// assert_eq!((quads.len(), quads.iter().len()), (3, 3));
/// for each in &quads {
///     assert_eq!(each, quad);
/// }
/// ```
#[derive(Clone, Debug, Default, PartialEq)]
pub struct Quads {
    pub(crate) places: Vec<u8>,
    pub(crate) hashes: Vec<f64>,
}

impl Quads {
    pub fn len(&self) -> usize {
        self.places.len() / 4
    }

    pub fn is_empty(&self) -> bool {
        self.places.is_empty()
    }

    pub fn iter(&self) -> Iter<'_> {
        Iter { places: self.places.chunks_exact(4), hashes: self.hashes.chunks_exact(4) }
    }
}

impl FromIterator<Quad> for Quads {
    fn from_iter<I: IntoIterator<Item = Quad>>(quads: I) -> Quads {
        let mut list = Quads::default();
        for quad in quads {
            list.places.extend(quad.places);
            list.hashes.extend(quad.hash);
        }
        list
    }
}

impl<'a> IntoIterator for &'a Quads {
    type Item = Quad;
    type IntoIter = Iter<'a>;

    fn into_iter(self) -> Iter<'a> {
        self.iter()
    }
}

/// The quads of a list, in its order.
#[derive(Clone, Debug)]
pub struct Iter<'a> {
    places: ChunksExact<'a, u8>,
    hashes: ChunksExact<'a, f64>,
}

impl Iterator for Iter<'_> {
    type Item = Quad;

    fn next(&mut self) -> Option<Quad> {
        let (places, hash) = (self.places.next()?, self.hashes.next()?);
        Some(Quad {
            places: places.try_into().expect("four places"),
            hash: hash.try_into().expect("four numbers"),
        })
    }

    fn size_hint(&self) -> (usize, Option<usize>) {
        self.places.size_hint()
    }
}

impl ExactSizeIterator for Iter<'_> {}

/// The two stars of four that are furthest apart, in order, then the other two.
///
/// ```
/// use moorspindle::quad::find_spine;
///
/// let spine = find_spine(&[0.0, 1.0, 0.0, 1.0], &[0.0, 0.0, 1.0, 1.0], [0, 1, 2, 3])?;
/// assert_eq!(spine, [0, 3, 1, 2]);
/// # Ok::<(), moorspindle::Refusal>(())
/// ```
pub fn find_spine(xs: &[f64], ys: &[f64], [p, q, r, s]: [u8; 4]) -> Result<[u8; 4]> {
    let mut spine = [0; 4];
    done(call!(moorspindle_find_spine(in xs, in ys, p, q, r, s, out spine)))?;
    Ok(spine)
}

/// The places of two stars, by smaller x, then y, then place.
///
/// ```
/// use moorspindle::quad::{Star, orient_spine};
///
/// let (a, b) = (Star { x: 1.0, y: 1.0, place: 3 }, Star { x: 0.0, y: 0.0, place: 0 });
/// assert_eq!(orient_spine(a, b)?, [0, 3]);
/// # Ok::<(), moorspindle::Refusal>(())
/// ```
pub fn orient_spine(a: Star, b: Star) -> Result<[u8; 2]> {
    let mut pair = [0; 2];
    done(call!(moorspindle_orient_spine(a.x, a.y, a.place, b.x, b.y, b.place, out pair)))?;
    Ok(pair)
}

/// The hash of four stars whose first two are the spine; the other two stand by their hash.
///
/// ```
/// use moorspindle::quad::normalize_quad_ordered;
///
/// let (xs, ys) = ([0.0, 1.0, 0.0, 1.0], [0.0, 0.0, 1.0, 1.0]);
/// let quad = normalize_quad_ordered(&xs, &ys, [0, 3, 2, 1])?;
/// assert_eq!((quad.places, quad.hash), ([0, 3, 1, 2], [0.5, -0.5, 0.5, 0.5]));
/// # Ok::<(), moorspindle::Refusal>(())
/// ```
pub fn normalize_quad_ordered(xs: &[f64], ys: &[f64], [a, b, c, d]: [u8; 4]) -> Result<Quad> {
    let mut quad = Quad { places: [0; 4], hash: [0.0; 4] };
    done(call!(moorspindle_normalize_quad_ordered(
        in xs, in ys, a, b, c, d, out quad.hash, out quad.places
    )))?;
    Ok(quad)
}

/// Every set of four places below n, in rising order.
#[derive(Clone, Debug)]
pub struct Combinations {
    n: u32,
    state: [u8; 5],
}

/// The sets of four places below n, which is at most 100, or else refused with
/// [`Refusal::Count`](crate::Refusal::Count).
///
/// ```
/// use moorspindle::{Refusal, quad::combinations_4};
///
/// let sets: Vec<[u8; 4]> = combinations_4(5)?.collect();
/// assert_eq!((sets.len(), sets[1]), (5, [0, 1, 2, 4]));
/// assert_eq!(combinations_4(usize::MAX).unwrap_err(), Refusal::Count);
/// # Ok::<(), Refusal>(())
/// ```
pub fn combinations_4(n: usize) -> Result<Combinations> {
    let (n, mut state) = (count(n), [0; 5]);
    done(call!(moorspindle_combinations_4(n, out state)))?;
    Ok(Combinations { n, state })
}

impl Iterator for Combinations {
    type Item = [u8; 4];

    fn next(&mut self) -> Option<[u8; 4]> {
        let (mut places, mut given) = ([0; 4], 0);
        let number = call!(moorspindle_combinations_4_next(
            self.n, out self.state, out places, num given
        ));
        debug_assert_eq!(number, 0, "a state that the steps made is taken");
        (given == 1).then_some(places)
    }
}

/// The quads of each star with three of its k nearest, each set of four once. A k above 10 is refused
/// with [`Refusal::Count`](crate::Refusal::Count).
///
/// ```
/// use moorspindle::quad::neighbor_quads;
///
/// let (xs, ys) = ([0.0, 1.0, 0.0, 1.0], [0.0, 0.0, 1.0, 1.0]);
/// assert_eq!(neighbor_quads(&xs, &ys, 3, 0.0)?.len(), 1);
/// assert_eq!(neighbor_quads(&xs, &ys, 3, 2.5)?.len(), 0);
/// # Ok::<(), moorspindle::Refusal>(())
/// ```
pub fn neighbor_quads(xs: &[f64], ys: &[f64], k: usize, min_spine_sq: f64) -> Result<Quads> {
    let mut list = Quads { places: vec![0; 4 * MOST_QUADS], hashes: vec![0.0; 4 * MOST_QUADS] };
    let mut found = 0;
    done(call!(moorspindle_neighbor_quads(
        in xs, in ys, count(k), min_spine_sq, out list.places, out list.hashes, num found
    )))?;
    list.places.truncate(4 * size(found));
    list.hashes.truncate(4 * size(found));
    Ok(list)
}

/// The key of a hash: four lanes of 16 bits.
///
/// ```
/// assert_eq!(moorspindle::quad::discrete_hash_key([0.5, -0.5, 0.5, 0.5]), 0x0226_0226_01c2_0226);
/// ```
pub fn discrete_hash_key([h0, h1, h2, h3]: [f64; 4]) -> u64 {
    moorspindle_discrete_hash_key(h0, h1, h2, h3)
}

/// The 81 keys whose lanes are at most one away; number 40 is the key itself.
///
/// ```
/// use moorspindle::quad::{discrete_hash_key, discrete_hash_key_neighbors};
///
/// let keys = discrete_hash_key_neighbors([0.5, -0.5, 0.5, 0.5]);
/// assert_eq!(keys[40], discrete_hash_key([0.5, -0.5, 0.5, 0.5]));
/// ```
pub fn discrete_hash_key_neighbors([h0, h1, h2, h3]: [f64; 4]) -> [u64; 81] {
    let mut keys = [0; 81];
    let number = call!(moorspindle_discrete_hash_key_neighbors(h0, h1, h2, h3, out keys));
    debug_assert_eq!(number, 0, "81 places are enough");
    keys
}
