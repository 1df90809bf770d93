//! cd_matrix.rs. Each pointer comes from a Rust reference and goes with its length, and what is
//! lent to be written overlaps nothing else.

use super::ffi::*;
use super::matching::Rows;
use crate::stack::called;

pub fn fit_cd_matrix_6([px, py, xi, eta]: Rows, mask: &[u8], cd: &mut [f64]) -> u32 {
    called(|| unsafe {
        moorspindle_fit_cd_matrix_6(
            px.as_ptr(),
            px.len(),
            py.as_ptr(),
            py.len(),
            xi.as_ptr(),
            xi.len(),
            eta.as_ptr(),
            eta.len(),
            mask.as_ptr(),
            mask.len(),
            cd.as_mut_ptr(),
            cd.len(),
        )
    })
}

pub fn fit_cd_weighted(
    [px, py, xi, eta]: Rows,
    mask: &[u8],
    weights: &[f64],
    cd: &mut [f64],
) -> u32 {
    called(|| unsafe {
        moorspindle_fit_cd_weighted(
            px.as_ptr(),
            px.len(),
            py.as_ptr(),
            py.len(),
            xi.as_ptr(),
            xi.len(),
            eta.as_ptr(),
            eta.len(),
            mask.as_ptr(),
            mask.len(),
            weights.as_ptr(),
            weights.len(),
            cd.as_mut_ptr(),
            cd.len(),
        )
    })
}

pub fn compute_pixel_errors(
    [px, py, xi, eta]: Rows,
    mask: &[u8],
    cd: &[f64],
    errors: &mut [f64],
) -> u32 {
    called(|| unsafe {
        moorspindle_compute_pixel_errors(
            px.as_ptr(),
            px.len(),
            py.as_ptr(),
            py.len(),
            xi.as_ptr(),
            xi.len(),
            eta.as_ptr(),
            eta.len(),
            mask.as_ptr(),
            mask.len(),
            cd.as_ptr(),
            cd.len(),
            errors.as_mut_ptr(),
            errors.len(),
        )
    })
}

/// The lists that residuals are written into: err_x, err_y, err_px.
pub type Errors = [Vec<f64>; 3];

pub fn compute_residuals(
    [px, py, xi, eta]: Rows,
    wcs: &[f64],
    errors: &mut Errors,
    residuals: &mut u64,
) -> u32 {
    let [err_x, err_y, err_px] = errors;
    called(|| unsafe {
        moorspindle_compute_residuals(
            px.as_ptr(),
            px.len(),
            py.as_ptr(),
            py.len(),
            xi.as_ptr(),
            xi.len(),
            eta.as_ptr(),
            eta.len(),
            wcs.as_ptr(),
            wcs.len(),
            err_x.as_mut_ptr(),
            err_x.len(),
            err_y.as_mut_ptr(),
            err_y.len(),
            err_px.as_mut_ptr(),
            err_px.len(),
            residuals,
        )
    })
}

pub fn rms_error(err_px: &[f64], rms: &mut f64) -> u32 {
    called(|| unsafe { moorspindle_rms_error(err_px.as_ptr(), err_px.len(), rms) })
}

pub fn weighted_rms_error(err_px: &[f64], weights: &[f64], rms: &mut f64) -> u32 {
    called(|| unsafe {
        moorspindle_weighted_rms_error(
            err_px.as_ptr(),
            err_px.len(),
            weights.as_ptr(),
            weights.len(),
            rms,
        )
    })
}

pub fn solve_normal_equations(a: &[f64], b: &[f64], n: u32, x: &mut [f64]) -> u32 {
    called(|| unsafe {
        moorspindle_solve_normal_equations(
            a.as_ptr(),
            a.len(),
            b.as_ptr(),
            b.len(),
            n,
            x.as_mut_ptr(),
            x.len(),
        )
    })
}
