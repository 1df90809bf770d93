//! sip.rs. Each pointer comes from a Rust reference and goes with its length, and what is lent to
//! be written overlaps nothing else.

use super::ffi::*;
use super::matching::Rows;
use crate::stack::called;

/// What a fit is written into: the coefficients of both axes, the rows used, the three sums.
#[derive(Clone)]
pub struct Lent {
    pub a: Vec<f64>,
    pub b: Vec<f64>,
    pub rows_used: u64,
    pub sums: Vec<f64>,
}

pub fn fit_sip(
    [px, py, xi, eta]: Rows,
    snr: &[f64],
    wcs: &[f64],
    order: u32,
    lent: &mut Lent,
) -> u32 {
    called(|| unsafe {
        moorspindle_fit_sip(
            px.as_ptr(),
            px.len(),
            py.as_ptr(),
            py.len(),
            xi.as_ptr(),
            xi.len(),
            eta.as_ptr(),
            eta.len(),
            snr.as_ptr(),
            snr.len(),
            wcs.as_ptr(),
            wcs.len(),
            order,
            lent.a.as_mut_ptr(),
            lent.a.len(),
            lent.b.as_mut_ptr(),
            lent.b.len(),
            &mut lent.rows_used,
            lent.sums.as_mut_ptr(),
            lent.sums.len(),
        )
    })
}
