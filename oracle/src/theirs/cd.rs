//! cd_matrix.rs behind Moorspindle's signatures.

use celestial_solver::fit_wcs::{self, Cd};

use super::rows::{few_and_even, rows_of};
use super::{COUNT, DEGENERATE, LENGTHS, ROOM, VALUE};
use super::{Tested, is_finite, is_position, is_weight, number, put, refuse};
use crate::ours::cd::Errors;
use crate::ours::matching::Rows;

const MOST: usize = 100; // rows, errors
const MOST_UNKNOWNS: u32 = 54;

pub fn fit_cd_matrix_6(rows: Rows, mask: &[u8], cd: &mut [f64]) -> u32 {
    number(|| {
        let mask = test_mask(rows, mask, None)?;
        let rows = rows_of(rows)?;
        refuse(ROOM, cd.len() < 6)?;
        put(cd, &fit_wcs::fit_cd_matrix_6(&rows, &mask).map_err(|_| DEGENERATE)?);
        Ok(())
    })
}

pub fn fit_cd_weighted(rows: Rows, mask: &[u8], weights: &[f64], cd: &mut [f64]) -> u32 {
    number(|| {
        let mask = test_mask(rows, mask, Some(weights))?;
        let rows = rows_of(rows)?;
        refuse(ROOM, cd.len() < 6)?;
        put(cd, &fit_wcs::fit_cd_weighted(&rows, &mask, weights).map_err(|_| DEGENERATE)?);
        Ok(())
    })
}

pub fn compute_pixel_errors(rows: Rows, mask: &[u8], cd: &[f64], errors: &mut [f64]) -> u32 {
    number(|| {
        refuse(COUNT, mask.len() > MOST || rows.iter().any(|list| list.len() > MOST))?;
        refuse(LENGTHS, cd.len() != 6)?;
        let mask = test_mask(rows, mask, None)?;
        let rows = rows_of(rows)?;
        refuse(VALUE, cd.iter().any(|&x| !is_finite(x)))?;
        refuse(ROOM, errors.len() < rows.len())?;
        put(errors, &fit_wcs::compute_pixel_errors(&rows, &mask, six(cd)));
        Ok(())
    })
}

pub fn compute_residuals(rows: Rows, wcs: &[f64], errors: &mut Errors, residuals: &mut u64) -> u32 {
    number(|| {
        refuse(COUNT, rows.iter().any(|list| list.len() > MOST))?;
        refuse(LENGTHS, wcs.len() != 6)?;
        let rows = rows_of(rows)?;
        let outside = wcs[..2].iter().any(|&x| !is_position(x));
        refuse(VALUE, outside || wcs.iter().any(|&x| !is_finite(x)))?;
        let found = fit_wcs::compute_residuals(&rows, six(wcs));
        refuse(ROOM, errors.iter().any(|list| list.len() < found.len()))?;
        for (place, of_row) in found.iter().enumerate() {
            for (list, &error) in errors.iter_mut().zip(of_row) {
                list[place] = error;
            }
        }
        *residuals = found.len() as u64;
        Ok(())
    })
}

pub fn rms_error(err_px: &[f64], rms: &mut f64) -> u32 {
    number(|| {
        refuse(COUNT, err_px.len() > MOST)?;
        *rms = fit_wcs::rms_error(err_px);
        Ok(())
    })
}

pub fn weighted_rms_error(err_px: &[f64], weights: &[f64], rms: &mut f64) -> u32 {
    number(|| {
        refuse(COUNT, err_px.len() > MOST || weights.len() > MOST)?;
        refuse(LENGTHS, err_px.len() != weights.len())?;
        *rms = fit_wcs::weighted_rms_error(err_px, weights);
        Ok(())
    })
}

pub fn solve_normal_equations(a: &[f64], b: &[f64], n: u32, x: &mut [f64]) -> u32 {
    number(|| {
        refuse(COUNT, n > MOST_UNKNOWNS)?;
        let n = n as usize;
        refuse(LENGTHS, a.len() != n * n || b.len() != n)?;
        refuse(ROOM, x.len() < n)?;
        put(x, &fit_wcs::solve_normal_equations(a, b, n).map_err(|_| DEGENERATE)?);
        Ok(())
    })
}

/// The mask as the Rust has it, once the numbers 1, 2 and 3 of all lists are not due.
pub fn test_mask(rows: Rows, mask: &[u8], weights: Option<&[f64]>) -> Tested<Vec<bool>> {
    let n = rows[0].len();
    let lists = weights.map_or(0, <[f64]>::len).max(mask.len());
    refuse(COUNT, lists > MOST || rows.iter().any(|list| list.len() > MOST))?;
    few_and_even(rows)?;
    refuse(LENGTHS, mask.len() != n || weights.is_some_and(|weights| weights.len() != n))?;
    let heavy = weights.is_some_and(|weights| weights.iter().any(|&w| !is_weight(w)));
    refuse(VALUE, heavy || mask.iter().any(|&byte| byte > 1))?;
    Ok(mask.iter().map(|&byte| byte == 1).collect())
}

pub fn six(numbers: &[f64]) -> Cd {
    numbers.try_into().expect("six numbers")
}
