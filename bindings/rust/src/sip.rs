//! The SIP fit: what a plate leaves of the pixels' places, as a polynomial of each axis.

use crate::call::call;
use crate::ffi::*;
use crate::plate::Wcs;
use crate::{Result, Rows, done, size};

/// A fit of pixel minus ideal. The coefficients stand in the order of [`terms`], a dropped one as
/// 0.0; what they mean is said in `docs/ARCHITECTURE.md`, "The SIP fit".
#[derive(Clone, Debug, PartialEq)]
pub struct Sip {
    pub order: u32,
    pub a: Vec<f64>,
    pub b: Vec<f64>,
    pub rows_used: usize,
    /// The root mean square in pixels before the fit, after it, and weighted.
    pub linear_rms: f64,
    pub rms: f64,
    pub wrms: f64,
}

/// The powers p and q of each term u^p v^q: by total degree from 2 to the order, p falling.
///
/// ```
/// let terms: Vec<(u32, u32)> = moorspindle::sip::terms(3).collect();
/// assert_eq!(terms, [(2, 0), (1, 1), (0, 2), (3, 0), (2, 1), (1, 2), (0, 3)]);
/// ```
pub fn terms(order: u32) -> impl Iterator<Item = (u32, u32)> {
    (2..=order).flat_map(|total| (0..=total).map(move |q| (total - q, q)))
}

/// Fits both polynomials to the rows, each weighted by its snr squared.
///
/// ```
/// use moorspindle::{Refusal, Rows, plate::Wcs, sip::fit_sip};
///
/// let wcs = Wcs { crpix1: 0.0, crpix2: 0.0, cd1_1: 1.0, cd1_2: 0.0, cd2_1: 0.0, cd2_2: 1.0 };
/// let py = [0.0, 0.0, 1.0, 1.0, -1.0, -1.0];
/// let rows = Rows {
///     px: &[1.0, -1.0, 1.0, -1.0, 1.0, -1.0],
///     py: &py,
///     xi: &[0.5, -1.5, 0.5, -1.5, 0.5, -1.5],
///     eta: &py,
/// };
/// let sip = fit_sip(rows, &[20.0; 6], wcs, 2)?;
/// assert_eq!((sip.rows_used, sip.a), (6, vec![0.5, 0.0, 0.0]));
/// assert_eq!(fit_sip(rows, &[20.0; 6], wcs, 3), Err(Refusal::Rows));
/// # Ok::<(), Refusal>(())
/// ```
pub fn fit_sip(rows: Rows, snr: &[f64], wcs: Wcs, order: u32) -> Result<Sip> {
    let Rows { px, py, xi, eta } = rows;
    let room = terms(order.min(9)).count();
    let (mut a, mut b, mut sums) = (vec![0.0; room], vec![0.0; room], [0.0; 3]);
    let mut rows_used = 0;
    done(call!(moorspindle_fit_sip(
        in px, in py, in xi, in eta, in snr, in wcs.numbers(), order,
        out a, out b, num rows_used, out sums
    )))?;
    let [linear_rms, rms, wrms] = sums;
    Ok(Sip { order, a, b, rows_used: size(rows_used), linear_rms, rms, wrms })
}
