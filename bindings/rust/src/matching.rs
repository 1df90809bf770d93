//! Matches of quads, by an index too, and the pairs that their votes make.

use std::slice::ChunksExact;

use crate::call::call;
use crate::ffi::*;
use crate::quad::Quads;
use crate::{Refusal, Result, done, size};

/// The matches for which there is room at first.
const FIRST_ROOM: usize = 16_384;

/// An image quad and a catalogue quad of one shape, by their star places.
#[derive(Clone, Copy, Debug, PartialEq, Eq)]
pub struct Match {
    pub image: [u8; 4],
    pub catalogue: [u8; 4],
}

/// A list of matches, eight star places to each.
///
/// ```
/// use moorspindle::matching::{Match, Matches};
///
/// let found = Match { image: [0, 3, 1, 2], catalogue: [7, 4, 6, 5] };
/// let matches: Matches = [found; 2].into_iter().collect();
/// assert_eq!((matches.len(), matches.iter().len()), (2, 2));
/// for each in &matches {
///     assert_eq!(each, found);
/// }
/// ```
#[derive(Clone, Debug, Default, PartialEq, Eq)]
pub struct Matches(Vec<u8>);

impl Matches {
    pub fn len(&self) -> usize {
        self.0.len() / 8
    }

    pub fn is_empty(&self) -> bool {
        self.0.is_empty()
    }

    pub fn iter(&self) -> Iter<'_> {
        Iter(self.0.chunks_exact(8))
    }
}

impl FromIterator<Match> for Matches {
    fn from_iter<I: IntoIterator<Item = Match>>(matches: I) -> Matches {
        Matches(matches.into_iter().flat_map(|m| m.image.into_iter().chain(m.catalogue)).collect())
    }
}

impl<'a> IntoIterator for &'a Matches {
    type Item = Match;
    type IntoIter = Iter<'a>;

    fn into_iter(self) -> Iter<'a> {
        self.iter()
    }
}

/// The matches of a list, in its order.
#[derive(Clone, Debug)]
pub struct Iter<'a>(ChunksExact<'a, u8>);

impl Iterator for Iter<'_> {
    type Item = Match;

    fn next(&mut self) -> Option<Match> {
        let (image, catalogue) = self.0.next()?.split_at(4);
        let four = |places: &[u8]| places.try_into().expect("four places");
        Some(Match { image: four(image), catalogue: four(catalogue) })
    }

    fn size_hint(&self) -> (usize, Option<usize>) {
        self.0.size_hint()
    }
}

impl ExactSizeIterator for Iter<'_> {}

/// Every pair of quads of one shape: by image quad, then key number, then catalogue quad.
///
/// ```
/// use moorspindle::matching::find_matches;
/// use moorspindle::quad::neighbor_quads;
///
/// let small = neighbor_quads(&[0.0, 1.0, 0.0, 1.0], &[0.0, 0.0, 1.0, 1.0], 3, 0.0)?;
/// let large = neighbor_quads(&[5.0, 9.0, 5.0, 9.0], &[5.0, 5.0, 9.0, 9.0], 3, 0.0)?;
/// let matches = find_matches(&small, &large)?;
/// assert_eq!(matches.iter().next().unwrap().catalogue, [0, 3, 1, 2]);
/// # Ok::<(), moorspindle::Refusal>(())
/// ```
pub fn find_matches(image: &Quads, catalogue: &Quads) -> Result<Matches> {
    with_room(|matches, found| {
        call!(moorspindle_find_matches(
            in image.places, in image.hashes, in catalogue.places, in catalogue.hashes,
            out *matches, num *found
        ))
    })
}

/// The index of a list of catalogue quads: built once, it is good for every search in that list.
///
/// ```
/// use moorspindle::matching::{Index, find_matches, find_matches_indexed};
/// use moorspindle::quad::{Quads, neighbor_quads};
///
/// let catalogue = neighbor_quads(&[0.0, 1.0, 0.0, 1.0], &[0.0, 0.0, 1.0, 1.0], 3, 0.0)?;
/// let index = Index::build(&catalogue)?;
/// for image in [catalogue.clone(), Quads::default()] {
///     let matches = find_matches_indexed(&image, &catalogue, &index)?;
///     assert_eq!(matches, find_matches(&image, &catalogue)?);
/// }
/// # Ok::<(), moorspindle::Refusal>(())
/// ```
#[derive(Clone, Debug, PartialEq, Eq)]
pub struct Index(Vec<u64>);

impl Index {
    /// Refused with [`Refusal::Count`] above 12,000 quads.
    pub fn build(catalogue: &Quads) -> Result<Index> {
        let mut table = vec![0; 2 * catalogue.len()];
        done(call!(moorspindle_build_hash_index(in catalogue.hashes, out table)))?;
        Ok(Index(table))
    }
}

/// The matches of [`find_matches`], in their order, by the catalogue list's index: in a small part of
/// the time. The index of another list is refused with [`Refusal::Index`].
///
/// ```
/// use moorspindle::Refusal;
/// use moorspindle::matching::{Index, find_matches_indexed};
/// use moorspindle::quad::{Quads, neighbor_quads};
///
/// let square = neighbor_quads(&[0.0, 1.0, 0.0, 1.0], &[0.0, 0.0, 1.0, 1.0], 3, 0.0)?;
/// let index = Index::build(&square)?;
/// assert_eq!(find_matches_indexed(&square, &square, &index)?.len(), 1);
/// let twice: Quads = square.iter().chain(&square).collect();
/// assert_eq!(find_matches_indexed(&square, &twice, &index), Err(Refusal::Index));
/// # Ok::<(), Refusal>(())
/// ```
pub fn find_matches_indexed(image: &Quads, catalogue: &Quads, index: &Index) -> Result<Matches> {
    with_room(|matches, found| {
        call!(moorspindle_find_matches_indexed(
            in image.places, in image.hashes, in catalogue.places, in catalogue.hashes,
            in index.0, out *matches, num *found
        ))
    })
}

/// Asks again with more room until there is enough.
fn with_room(find: impl Fn(&mut [u8], &mut u64) -> u32) -> Result<Matches> {
    let mut room = FIRST_ROOM;
    loop {
        let (mut matches, mut found) = (vec![0; 8 * room], 0);
        match done(find(&mut matches, &mut found)) {
            Err(Refusal::Room) => room *= 8,
            answer => {
                matches.truncate(8 * size(found));
                return answer.map(|()| Matches(matches));
            }
        }
    }
}

/// Detections: their pixels and their signal to noise. The lists are of one length.
#[derive(Clone, Copy, Debug)]
pub struct Detections<'a> {
    pub x: &'a [f64],
    pub y: &'a [f64],
    pub snr: &'a [f64],
}

/// Results of a catalogue: ids with their positions. The lists are of one length.
#[derive(Clone, Copy, Debug)]
pub struct Results<'a> {
    pub ids: &'a [i64],
    pub ra: &'a [f64],
    pub dec: &'a [f64],
}

/// Who the star places of the matches are: a detection's id for each image star, a catalogue's id
/// for each catalogue star.
#[derive(Clone, Copy, Debug)]
pub struct Ids<'a> {
    pub image: &'a [u32],
    pub catalogue: &'a [i64],
}

/// A detection and the result that most matches gave it.
#[derive(Clone, Copy, Debug, PartialEq)]
pub struct Pair {
    pub px: f64,
    pub py: f64,
    pub ra: f64,
    pub dec: f64,
    pub votes: u32,
    pub snr: f64,
}

/// The pairs that two votes or more make: by votes falling, then by detection.
///
/// ```
/// use moorspindle::matching::{Detections, Ids, Match, Matches, Results, extract_pairs};
///
/// let found = Match { image: [0, 1, 2, 3], catalogue: [0, 1, 2, 3] };
/// let matches: Matches = [found; 2].into_iter().collect();
/// let pairs = extract_pairs(
///     &matches,
///     Detections { x: &[1.0, 2.0, 3.0, 4.0], y: &[5.0; 4], snr: &[20.0; 4] },
///     Ids { image: &[0, 1, 2, 3], catalogue: &[70, 71, 72, 73] },
///     Results { ids: &[71, 73], ra: &[10.0, 11.0], dec: &[-3.0, -4.0] },
/// )?;
/// assert_eq!(pairs.len(), 2);
/// assert_eq!((pairs[0].px, pairs[0].ra, pairs[0].votes), (2.0, 10.0, 2));
/// # Ok::<(), moorspindle::Refusal>(())
/// ```
pub fn extract_pairs(
    matches: &Matches,
    detections: Detections,
    ids: Ids,
    results: Results,
) -> Result<Vec<Pair>> {
    let room = detections.x.len();
    let [mut px, mut py, mut ra, mut dec, mut snr] = [(); 5].map(|()| vec![0.0; room]);
    let (mut votes, mut pairs) = (vec![0; room], 0);
    done(call!(moorspindle_extract_pairs(
        in matches.0, in detections.x, in detections.y, in detections.snr,
        in ids.image, in ids.catalogue, in results.ids, in results.ra, in results.dec,
        out px, out py, out ra, out dec, out votes, out snr, num pairs
    )))?;
    let pair = |i: usize| Pair {
        px: px[i],
        py: py[i],
        ra: ra[i],
        dec: dec[i],
        votes: votes[i],
        snr: snr[i],
    };
    Ok((0..size(pairs)).map(pair).collect())
}
