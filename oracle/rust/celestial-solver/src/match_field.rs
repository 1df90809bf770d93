//! hash_index.rs, aggregate.rs and verify.rs.

use std::collections::HashMap;

use celestial_catalog::query::{ConeSearchResult, Quad, QuadStar};

use crate::detect::DetectedStar;
use crate::Row;

include!(concat!(env!("OUT_DIR"), "/match_field.rs"));

#[derive(Debug, Clone)]
pub struct QuadMatch {
    pub image_quad: Quad,
    pub catalog_quad: Quad,
}

#[derive(Debug, Clone)]
pub struct StarPair {
    pub px_x: f64,
    pub px_y: f64,
    pub ra_deg: f64,
    pub dec_deg: f64,
    pub votes: usize,
    pub snr: f64,
}

/// The Rust's index: the places of each key.
pub type Index = HashMap<u64, Vec<usize>>;

pub fn build_hash_index(catalogue: &[Quad]) -> Index {
    hash_index::build_hash_index(catalogue)
}

pub fn find_matches(image: &[Quad], catalogue: &[Quad], index: &Index) -> Vec<QuadMatch> {
    hash_index::find_matches(image, catalogue, index)
}

pub fn extract_pairs(
    matches: &[QuadMatch],
    detected: &[DetectedStar],
    image: &[QuadStar],
    catalogue: &[QuadStar],
    results: &[ConeSearchResult],
) -> Vec<StarPair> {
    aggregate::extract_pairs(matches, detected, image, catalogue, results)
}

pub fn fit_affine_3pt(rows: &[Row], a: usize, b: usize, c: usize) -> Option<[f64; 6]> {
    verify::fit_affine_3pt(rows, a, b, c)
}

pub fn count_affine_inliers(rows: &[Row], affine: &[f64; 6], threshold: f64) -> usize {
    verify::count_affine_inliers(rows, affine, threshold)
}

pub fn verify_pairs(rows: &[Row]) -> usize {
    let pairs: Vec<StarPair> = rows.iter().map(|&row| crate::pair(row, 0, 0.0)).collect();
    verify::verify_pairs(&pairs, 0.0, 0.0)
}
