//! The CD run and the clip. Each pointer comes from a Rust reference and goes with its length, and
//! what is lent to be written overlaps nothing else.

use super::ffi::*;
use super::matching::Rows;
use crate::stack::called;

/// What a run draws by: the votes, the limit of an error, and the number of trials.
#[derive(Clone, Copy)]
pub struct Draw<'a> {
    pub votes: &'a [u32],
    pub limit: f64,
    pub trials: u32,
}

/// What a run hands out beside the mask.
#[derive(Clone, Copy)]
pub struct Ran {
    pub tested: u8,
    pub on: u64,
}

pub fn ransac_fit([px, py, xi, eta]: Rows, draw: Draw, mask: &mut [u8], ran: &mut Ran) -> u32 {
    called(|| unsafe {
        moorspindle_ransac_fit(
            px.as_ptr(),
            px.len(),
            py.as_ptr(),
            py.len(),
            xi.as_ptr(),
            xi.len(),
            eta.as_ptr(),
            eta.len(),
            draw.votes.as_ptr(),
            draw.votes.len(),
            draw.limit,
            draw.trials,
            mask.as_mut_ptr(),
            mask.len(),
            &mut ran.tested,
            &mut ran.on,
        )
    })
}

pub fn sigma_clip_loop_weighted(
    [px, py, xi, eta]: Rows,
    mask: &mut [u8],
    cd: &mut [f64],
    weights: &[f64],
) -> u32 {
    called(|| unsafe {
        moorspindle_sigma_clip_loop_weighted(
            px.as_ptr(),
            px.len(),
            py.as_ptr(),
            py.len(),
            xi.as_ptr(),
            xi.len(),
            eta.as_ptr(),
            eta.len(),
            mask.as_mut_ptr(),
            mask.len(),
            cd.as_mut_ptr(),
            cd.len(),
            weights.as_ptr(),
            weights.len(),
        )
    })
}
