//! hash_index.rs, aggregate.rs and verify.rs. Each pointer comes from a Rust reference and goes
//! with its length, and what is lent to be written overlaps nothing else.

use super::ffi::*;
use crate::stack::called;

/// The places and hashes of a list of quads, four of each for a quad.
#[derive(Clone, Copy)]
pub struct Quads<'a> {
    pub places: &'a [u8],
    pub hashes: &'a [f64],
}

/// What votes are made of, but for the matches.
#[derive(Clone, Copy)]
pub struct Voters<'a> {
    pub det_x: &'a [f64],
    pub det_y: &'a [f64],
    pub det_snr: &'a [f64],
    pub image_ids: &'a [u32],
    pub catalogue_ids: &'a [i64],
    pub result_ids: &'a [i64],
    pub result_ra: &'a [f64],
    pub result_dec: &'a [f64],
}

/// The lists that pairs are written into.
#[derive(Clone)]
pub struct Pairs {
    pub px_x: Vec<f64>,
    pub px_y: Vec<f64>,
    pub ra: Vec<f64>,
    pub dec: Vec<f64>,
    pub votes: Vec<u32>,
    pub snr: Vec<f64>,
}

/// Four lists: px, py, xi, eta.
pub type Rows<'a> = [&'a [f64]; 4];

pub fn find_matches(image: Quads, catalogue: Quads, matches: &mut [u8], found: &mut u64) -> u32 {
    called(|| unsafe {
        moorspindle_find_matches(
            image.places.as_ptr(),
            image.places.len(),
            image.hashes.as_ptr(),
            image.hashes.len(),
            catalogue.places.as_ptr(),
            catalogue.places.len(),
            catalogue.hashes.as_ptr(),
            catalogue.hashes.len(),
            matches.as_mut_ptr(),
            matches.len(),
            found,
        )
    })
}

pub fn build_hash_index(hashes: &[f64], table: &mut [u64]) -> u32 {
    called(|| unsafe {
        moorspindle_build_hash_index(hashes.as_ptr(), hashes.len(), table.as_mut_ptr(), table.len())
    })
}

pub fn find_matches_indexed(
    image: Quads,
    catalogue: Quads,
    table: &[u64],
    matches: &mut [u8],
    found: &mut u64,
) -> u32 {
    called(|| unsafe {
        moorspindle_find_matches_indexed(
            image.places.as_ptr(),
            image.places.len(),
            image.hashes.as_ptr(),
            image.hashes.len(),
            catalogue.places.as_ptr(),
            catalogue.places.len(),
            catalogue.hashes.as_ptr(),
            catalogue.hashes.len(),
            table.as_ptr(),
            table.len(),
            matches.as_mut_ptr(),
            matches.len(),
            found,
        )
    })
}

pub fn extract_pairs(matches: &[u8], voters: Voters, out: &mut Pairs, pairs: &mut u64) -> u32 {
    called(|| unsafe {
        moorspindle_extract_pairs(
            matches.as_ptr(),
            matches.len(),
            voters.det_x.as_ptr(),
            voters.det_x.len(),
            voters.det_y.as_ptr(),
            voters.det_y.len(),
            voters.det_snr.as_ptr(),
            voters.det_snr.len(),
            voters.image_ids.as_ptr(),
            voters.image_ids.len(),
            voters.catalogue_ids.as_ptr(),
            voters.catalogue_ids.len(),
            voters.result_ids.as_ptr(),
            voters.result_ids.len(),
            voters.result_ra.as_ptr(),
            voters.result_ra.len(),
            voters.result_dec.as_ptr(),
            voters.result_dec.len(),
            out.px_x.as_mut_ptr(),
            out.px_x.len(),
            out.px_y.as_mut_ptr(),
            out.px_y.len(),
            out.ra.as_mut_ptr(),
            out.ra.len(),
            out.dec.as_mut_ptr(),
            out.dec.len(),
            out.votes.as_mut_ptr(),
            out.votes.len(),
            out.snr.as_mut_ptr(),
            out.snr.len(),
            pairs,
        )
    })
}

pub fn fit_affine_3pt([px, py, xi, eta]: Rows, places: [u8; 3], affine: &mut [f64]) -> u32 {
    let [a, b, c] = places;
    called(|| unsafe {
        moorspindle_fit_affine_3pt(
            px.as_ptr(),
            px.len(),
            py.as_ptr(),
            py.len(),
            xi.as_ptr(),
            xi.len(),
            eta.as_ptr(),
            eta.len(),
            a,
            b,
            c,
            affine.as_mut_ptr(),
            affine.len(),
        )
    })
}

pub fn count_affine_inliers(
    [px, py, xi, eta]: Rows,
    affine: &[f64],
    threshold: f64,
    inliers: &mut u64,
) -> u32 {
    called(|| unsafe {
        moorspindle_count_affine_inliers(
            px.as_ptr(),
            px.len(),
            py.as_ptr(),
            py.len(),
            xi.as_ptr(),
            xi.len(),
            eta.as_ptr(),
            eta.len(),
            affine.as_ptr(),
            affine.len(),
            threshold,
            inliers,
        )
    })
}

pub fn verify_pairs([px, py, xi, eta]: Rows, score: &mut u64) -> u32 {
    called(|| unsafe {
        moorspindle_verify_pairs(
            px.as_ptr(),
            px.len(),
            py.as_ptr(),
            py.len(),
            xi.as_ptr(),
            xi.len(),
            eta.as_ptr(),
            eta.len(),
            score,
        )
    })
}
