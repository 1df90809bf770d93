//! sip.rs behind Moorspindle's signature. This call has an order of refusals of its own.

use celestial_solver::fit_wcs::Sip;
use celestial_solver::{Fit, Row};

use super::rows::{few_and_even, rows_of};
use super::{COUNT, DEGENERATE, LENGTHS, ORDER, ROOM, ROWS, VALUE};
use super::{Tested, is_finite, is_position, is_snr, number, put, refuse};
use crate::ours::matching::Rows;
use crate::ours::sip::Lent;

const MOST: usize = 100; // rows
const LEAST: usize = 6;

/// A fit of the Rust's, edited or not.
pub type Fitted = fn(&[Row], &[f64], [f64; 6], u32) -> Fit<Sip>;

pub fn fit_sip_by(
    fitted: Fitted,
    rows: Rows,
    snr: &[f64],
    wcs: &[f64],
    order: u32,
    lent: &mut Lent,
) -> u32 {
    number(|| {
        let (rows, wcs) = test_field(rows, snr, wcs)?;
        refuse(ORDER, !(2..=5).contains(&order))?;
        let terms = terms(order);
        refuse(ROWS, rows.len() < LEAST.max(terms))?;
        refuse(ROOM, lent.a.len() < terms || lent.b.len() < terms || lent.sums.len() < 3)?;
        let [_, _, cd1_1, cd1_2, cd2_1, cd2_2] = wcs;
        let above = (cd1_1 * cd2_2 - cd1_2 * cd2_1).abs() > 1e-30; // NaN is not
        refuse(DEGENERATE, !above)?;
        let fit = fitted(&rows, snr, wcs, order).map_err(|error| refusal(&error))?;
        put(&mut lent.a, &fit.a);
        put(&mut lent.b, &fit.b);
        put(&mut lent.sums, &fit.sums);
        lent.rows_used = fit.rows_used as u64;
        Ok(())
    })
}

/// How many terms an order has.
pub fn terms(order: u32) -> usize {
    (2..=order as usize).map(|total| total + 1).sum()
}

/// The number of the Rust's own error.
fn refusal(error: &str) -> u32 {
    if error.contains("singular") { DEGENERATE } else { ROWS }
}

/// The rows and the WCS, once the numbers 1, 2 and 3 are not due.
fn test_field(rows: Rows, snr: &[f64], wcs: &[f64]) -> Tested<(Vec<Row>, [f64; 6])> {
    refuse(COUNT, snr.len() > MOST || rows.iter().any(|list| list.len() > MOST))?;
    let wcs: [f64; 6] = wcs.try_into().map_err(|_| LENGTHS)?;
    few_and_even(rows)?;
    refuse(LENGTHS, snr.len() != rows[0].len())?;
    let outside = wcs[..2].iter().any(|&x| !is_position(x)) || wcs.iter().any(|&x| !is_finite(x));
    refuse(VALUE, outside || snr.iter().any(|&x| !is_snr(x)))?;
    Ok((rows_of(rows)?, wcs))
}
