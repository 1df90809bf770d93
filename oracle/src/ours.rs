//! Moorspindle's calls, as bindings/c/moorspindle.h declares them; the Rust crate has them already.

pub mod cd;
#[path = "../../bindings/rust/src/ffi.rs"]
mod ffi;
pub mod matching;
pub mod record;
pub mod run;
pub mod sip;

use crate::stack::called;
use ffi::*;

#[link(name = "moorspindle", kind = "static")]
unsafe extern "C" {}

pub fn magnitude(x: f64) -> f64 {
    called(|| moorspindle_magnitude(x))
}

pub fn floor(x: f64) -> i32 {
    called(|| moorspindle_floor(x))
}

pub fn root(x: f64) -> f64 {
    called(|| moorspindle_root(x))
}

pub fn power(u: f64, p: u32) -> f64 {
    called(|| moorspindle_power(u, p))
}

// The quads. Each pointer that follows comes from a Rust reference and goes with its length, and
// what is lent to be written overlaps nothing else.

pub fn find_spine(xs: &[f64], ys: &[f64], places: [u8; 4], spine: &mut [u8]) -> u32 {
    let [p0, p1, p2, p3] = places;
    called(|| unsafe {
        moorspindle_find_spine(
            xs.as_ptr(),
            xs.len(),
            ys.as_ptr(),
            ys.len(),
            p0,
            p1,
            p2,
            p3,
            spine.as_mut_ptr(),
            spine.len(),
        )
    })
}

/// Each star is its x, its y and its place.
pub fn orient_spine(a: (f64, f64, u8), b: (f64, f64, u8), pair: &mut [u8]) -> u32 {
    called(|| unsafe {
        moorspindle_orient_spine(a.0, a.1, a.2, b.0, b.1, b.2, pair.as_mut_ptr(), pair.len())
    })
}

pub fn normalize_quad_ordered(
    xs: &[f64],
    ys: &[f64],
    quad: [u8; 4],
    hash: &mut [f64],
    places: &mut [u8],
) -> u32 {
    let [a, b, c, d] = quad;
    called(|| unsafe {
        moorspindle_normalize_quad_ordered(
            xs.as_ptr(),
            xs.len(),
            ys.as_ptr(),
            ys.len(),
            a,
            b,
            c,
            d,
            hash.as_mut_ptr(),
            hash.len(),
            places.as_mut_ptr(),
            places.len(),
        )
    })
}

pub fn combinations_4(n: u32, state: &mut [u8]) -> u32 {
    called(|| unsafe { moorspindle_combinations_4(n, state.as_mut_ptr(), state.len()) })
}

pub fn combinations_4_next(n: u32, state: &mut [u8], places: &mut [u8], given: &mut u8) -> u32 {
    called(|| unsafe {
        moorspindle_combinations_4_next(
            n,
            state.as_mut_ptr(),
            state.len(),
            places.as_mut_ptr(),
            places.len(),
            given,
        )
    })
}

pub fn neighbor_quads(
    xs: &[f64],
    ys: &[f64],
    k: u32,
    min_spine_sq: f64,
    places: &mut [u8],
    hashes: &mut [f64],
    quads: &mut u64,
) -> u32 {
    called(|| unsafe {
        moorspindle_neighbor_quads(
            xs.as_ptr(),
            xs.len(),
            ys.as_ptr(),
            ys.len(),
            k,
            min_spine_sq,
            places.as_mut_ptr(),
            places.len(),
            hashes.as_mut_ptr(),
            hashes.len(),
            quads,
        )
    })
}

pub fn discrete_hash_key(hash: [f64; 4]) -> u64 {
    let [h0, h1, h2, h3] = hash;
    called(|| moorspindle_discrete_hash_key(h0, h1, h2, h3))
}

pub fn discrete_hash_key_neighbors(hash: [f64; 4], keys: &mut [u64]) -> u32 {
    let [h0, h1, h2, h3] = hash;
    called(|| unsafe {
        moorspindle_discrete_hash_key_neighbors(h0, h1, h2, h3, keys.as_mut_ptr(), keys.len())
    })
}
