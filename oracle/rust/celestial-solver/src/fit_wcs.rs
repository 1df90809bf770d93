//! cd_matrix.rs and sip.rs.

use crate::match_field::StarPair;
use crate::{pair, Fit, Row};
pub use solution::StarResidual;
use solution::WcsSolution;

include!(concat!(env!("OUT_DIR"), "/solution.rs"));

/// cd1_1, cd1_2, xi0, cd2_1, cd2_2, eta0.
pub type Cd = [f64; 6];

/// crpix1, crpix2, cd1_1, cd1_2, cd2_1, cd2_2.
pub type Wcs = [f64; 6];

mod cd_matrix {
    include!(concat!(env!("OUT_DIR"), "/cd_matrix.rs"));

    /// The fit without weights is private to cd_matrix.rs.
    pub fn unweighted(projected: &[crate::Row], mask: &[bool]) -> Result<CdParams> {
        fit_cd_matrix_6(projected, mask)
    }
}

fn params(cd: Cd) -> cd_matrix::CdParams {
    let [cd1_1, cd1_2, xi0, cd2_1, cd2_2, eta0] = cd;
    cd_matrix::CdParams { cd1_1, cd1_2, xi0, cd2_1, cd2_2, eta0 }
}

fn numbers(p: cd_matrix::CdParams) -> Cd {
    [p.cd1_1, p.cd1_2, p.xi0, p.cd2_1, p.cd2_2, p.eta0]
}

fn plain<T>(answer: anyhow::Result<T>) -> Fit<T> {
    answer.map_err(|error| error.to_string())
}

pub fn fit_cd_matrix_6(rows: &[Row], mask: &[bool]) -> Fit<Cd> {
    plain(cd_matrix::unweighted(rows, mask)).map(numbers)
}

pub fn fit_cd_weighted(rows: &[Row], mask: &[bool], weights: &[f64]) -> Fit<Cd> {
    plain(cd_matrix::fit_cd_weighted(rows, mask, weights)).map(numbers)
}

pub fn compute_pixel_errors(rows: &[Row], mask: &[bool], cd: Cd) -> Vec<f64> {
    cd_matrix::compute_pixel_errors(rows, mask, params(cd))
}

/// The pairs of the draw carry votes; there may be more or fewer of them than rows.
fn voted(votes: &[usize]) -> Vec<StarPair> {
    let row = (0.0, 0.0, 0.0, 0.0);
    votes.iter().map(|&v| pair(row, v, 0.0)).collect()
}

/// The untouched draw, of 1,000 trials.
pub fn ransac_fit(rows: &[Row], votes: &[usize], limit: f64) -> Fit<Vec<bool>> {
    plain(cd_matrix::ransac_fit(rows, &voted(votes), limit))
}

/// The same text with another number of trials, and nothing else changed.
pub fn ransac_fit_of(rows: &[Row], votes: &[usize], limit: f64, number: usize) -> Fit<Vec<bool>> {
    trials::set(number);
    plain(cd_matrix_trials::ransac_fit(rows, &voted(votes), limit))
}

mod cd_matrix_trials {
    include!(concat!(env!("OUT_DIR"), "/cd_matrix_trials.rs"));
}

mod trials {
    use std::cell::Cell;

    thread_local!(static NUMBER: Cell<usize> = const { Cell::new(1000) });

    pub fn set(number: usize) {
        NUMBER.set(number);
    }

    pub fn now() -> usize {
        NUMBER.get()
    }
}

/// On an error the mask and the CD numbers hold what the Rust leaves in them.
pub fn sigma_clip_loop_weighted(
    rows: &[Row],
    mask: &mut [bool],
    cd: &mut Cd,
    weights: &[f64],
) -> Fit<()> {
    let mut held = params(*cd);
    let done = cd_matrix::sigma_clip_loop_weighted(rows, mask, &mut held, weights);
    *cd = numbers(held);
    plain(done)
}

/// Wrong ports: each a text of cd_matrix.rs with one line changed. What they answer is of no worth
/// but to find a case that tells them from the right one.
pub mod wrong {
    use super::{plain, solution, voted, Cd};
    use crate::{Fit, Row};

    /// The mask of a run, by a number of trials.
    pub type Run = fn(&[Row], &[usize], f64, usize) -> Fit<Vec<bool>>;
    /// What a clip leaves of the mask and the CD.
    pub type Clip = fn(&[Row], &[bool], Cd, &[f64]) -> (bool, Vec<bool>, Cd);

    macro_rules! wrong {
        ($name:ident, $file:literal) => {
            pub mod $name {
                use super::{plain, solution, voted, Cd, Fit, Row};

                mod text {
                    include!(concat!(env!("OUT_DIR"), $file));
                }

                pub fn run(rows: &[Row], votes: &[usize], limit: f64, n: usize) -> Fit<Vec<bool>> {
                    super::super::trials::set(n);
                    plain(text::ransac_fit(rows, &voted(votes), limit))
                }

                pub fn clip(
                    rows: &[Row],
                    mask: &[bool],
                    [cd1_1, cd1_2, xi0, cd2_1, cd2_2, eta0]: Cd,
                    weights: &[f64],
                ) -> (bool, Vec<bool>, Cd) {
                    let mut mask = mask.to_vec();
                    let mut p = text::CdParams { cd1_1, cd1_2, xi0, cd2_1, cd2_2, eta0 };
                    let done = text::sigma_clip_loop_weighted(rows, &mut mask, &mut p, weights);
                    let cd = [p.cd1_1, p.cd1_2, p.xi0, p.cd2_1, p.cd2_2, p.eta0];
                    (done.is_ok(), mask, cd)
                }
            }
        };
    }

    wrong!(below, "/wrong_below.rs");
    wrong!(as_many, "/wrong_as_many.rs");
    wrong!(refit_more, "/wrong_refit_more.rs");
    wrong!(refit_none, "/wrong_refit_none.rs");
    wrong!(redraw, "/wrong_redraw.rs");
    wrong!(above_third, "/wrong_above_third.rs");
    wrong!(rounds_9, "/wrong_rounds_9.rs");
    wrong!(rounds_11, "/wrong_rounds_11.rs");
    wrong!(square_first, "/wrong_square_first.rs");
    wrong!(at_threshold, "/wrong_at_threshold.rs");

    pub const RUNS: [Run; 6] =
        [below::run, as_many::run, refit_more::run, refit_none::run, redraw::run, above_third::run];
    pub const CLIPS: [Clip; 4] =
        [rounds_9::clip, rounds_11::clip, square_first::clip, at_threshold::clip];
}

/// A WCS as a text of cd_matrix.rs has it.
macro_rules! wcs_params {
    ($text:ident, $wcs:expr) => {{
        let [crpix1, crpix2, cd1_1, cd1_2, cd2_1, cd2_2] = $wcs;
        let (crval_ra, crval_dec) = (0.0, 0.0);
        $text::WcsParams { crpix1, crpix2, crval_ra, crval_dec, cd1_1, cd1_2, cd2_1, cd2_2 }
    }};
}

/// One text of cd_matrix.rs with a root of its own, and what takes roots in it, to be timed.
macro_rules! with_root {
    ($module:ident, $file:literal) => {
        pub mod $module {
            use super::{plain, solution, voted, Cd, StarPair, StarResidual, Wcs};
            use crate::{Fit, Row};

            mod text {
                include!(concat!(env!("OUT_DIR"), $file));
            }

            pub fn residuals_of(pairs: &[&StarPair], wcs: Wcs) -> Vec<StarResidual> {
                text::compute_residuals(pairs, wcs_params!(text, wcs))
            }

            pub fn rms_of(residuals: &[StarResidual]) -> f64 {
                text::rms_error(residuals)
            }

            pub fn weighted_rms_of(residuals: &[StarResidual], weights: &[f64]) -> f64 {
                text::weighted_rms_error(residuals, weights)
            }

            pub fn compute_pixel_errors(rows: &[Row], mask: &[bool], cd: Cd) -> Vec<f64> {
                text::compute_pixel_errors(rows, mask, params(cd))
            }

            pub fn ransac_fit(rows: &[Row], votes: &[usize], limit: f64) -> Fit<Vec<bool>> {
                plain(text::ransac_fit(rows, &voted(votes), limit))
            }

            pub fn sigma_clip_loop_weighted(
                rows: &[Row],
                mask: &mut [bool],
                cd: Cd,
                weights: &[f64],
            ) -> Fit<()> {
                plain(text::sigma_clip_loop_weighted(rows, mask, &mut params(cd), weights))
            }

            fn params(cd: Cd) -> text::CdParams {
                let [cd1_1, cd1_2, xi0, cd2_1, cd2_2, eta0] = cd;
                text::CdParams { cd1_1, cd1_2, xi0, cd2_1, cd2_2, eta0 }
            }
        }
    };
}

with_root!(hardware, "/cd_matrix_hardware.rs");
with_root!(software, "/cd_matrix_software.rs");

/// err_x, err_y, err_px of each row.
pub fn compute_residuals(rows: &[Row], wcs: Wcs) -> Vec<[f64; 3]> {
    let pairs = pairs_of_rows(rows);
    let residuals = residuals_of(&pairs.iter().collect::<Vec<_>>(), wcs);
    let errors = |r: &StarResidual| [r.err_x, r.err_y, r.err_px];
    residuals.iter().map(errors).collect()
}

/// The rows as the Rust's own lists have them. These and the next three are its calls with nothing
/// made on the way, to be timed.
pub fn pairs_of_rows(rows: &[Row]) -> Vec<StarPair> {
    rows.iter().map(|&row| pair(row, 0, 0.0)).collect()
}

pub fn residuals_of(pairs: &[&StarPair], wcs: Wcs) -> Vec<StarResidual> {
    cd_matrix::compute_residuals(pairs, wcs_params!(cd_matrix, wcs))
}

pub fn rms_of(residuals: &[StarResidual]) -> f64 {
    cd_matrix::rms_error(residuals)
}

pub fn weighted_rms_of(residuals: &[StarResidual], weights: &[f64]) -> f64 {
    cd_matrix::weighted_rms_error(residuals, weights)
}

/// Only err_px is read by the two rms.
fn residuals(err_px: &[f64]) -> Vec<StarResidual> {
    let residual =
        |&err_px: &f64| StarResidual { px_x: 0.0, px_y: 0.0, err_x: 0.0, err_y: 0.0, err_px };
    err_px.iter().map(residual).collect()
}

pub fn rms_error(err_px: &[f64]) -> f64 {
    cd_matrix::rms_error(&residuals(err_px))
}

pub fn weighted_rms_error(err_px: &[f64], weights: &[f64]) -> f64 {
    cd_matrix::weighted_rms_error(&residuals(err_px), weights)
}

/// The Rust eliminates in its inputs; here they are only read.
pub fn solve_normal_equations(a: &[f64], b: &[f64], n: usize) -> Fit<Vec<f64>> {
    plain(cd_matrix::solve_normal_equations(&mut a.to_vec(), &mut b.to_vec(), n))
}

/// A SIP fit: a coefficient for each term, 0.0 for a dropped one; linear_rms, rms, wrms.
#[derive(Debug, Clone)]
pub struct Sip {
    pub a: Vec<f64>,
    pub b: Vec<f64>,
    pub rows_used: usize,
    pub sums: [f64; 3],
}

/// One text of sip.rs, and a function over plain numbers beside it.
macro_rules! sip {
    ($module:ident, $file:literal) => {
        mod $module {
            include!(concat!(env!("OUT_DIR"), $file));

            pub fn run(pairs: &[StarPair], wcs: &WcsSolution, order: u32) -> Result<super::Sip> {
                let fit = fit_sip(pairs, wcs, order)?;
                let kept = |coeffs: &HashMap<(u32, u32), f64>| {
                    let terms = sip_monomial_terms(order);
                    let coefficient = |term| coeffs.get(term).copied().unwrap_or(0.0);
                    terms.iter().map(coefficient).collect()
                };
                Ok(super::Sip {
                    a: kept(&fit.a_coeffs),
                    b: kept(&fit.b_coeffs),
                    rows_used: fit.n_stars,
                    sums: [fit.linear_rms_px, fit.rms_px, fit.weighted_rms_px],
                })
            }
        }
    };
}

sip!(sip, "/sip.rs");
sip!(sip_in_order, "/sip_in_order.rs");

/// What the edited sip.rs takes instead of a hash map and libm's pow.
mod in_order {
    /// A map that hands its entries out as they were put in; no key is put in twice.
    #[derive(Debug, Clone)]
    pub struct Map<K, V>(Vec<(K, V)>);

    impl<K: PartialEq, V> Map<K, V> {
        pub fn new() -> Self {
            Map(Vec::new())
        }

        pub fn insert(&mut self, key: K, value: V) {
            self.0.push((key, value));
        }

        pub fn get(&self, key: &K) -> Option<&V> {
            self.iter().find(|(k, _)| *k == key).map(|(_, v)| v)
        }

        pub fn iter(&self) -> impl Iterator<Item = (&K, &V)> {
            self.0.iter().map(|(k, v)| (k, v))
        }
    }

    /// u^0 is 1, u^(p+1) is u^p times u.
    pub fn power(u: f64, p: f64) -> f64 {
        (0..p as u32).fold(1.0, |r, _| r * u)
    }
}

fn wcs_of(wcs: Wcs) -> WcsSolution {
    let [crpix1, crpix2, cd1_1, cd1_2, cd2_1, cd2_2] = wcs;
    WcsSolution {
        crpix1,
        crpix2,
        crval1: 0.0,
        crval2: 0.0,
        cd1_1,
        cd1_2,
        cd2_1,
        cd2_2,
        width: 0,
        height: 0,
        focal_mm: None,
        pixel_um: None,
        n_stars: 0,
        rms_px: 0.0,
        weighted_rms_px: 0.0,
        residuals: Vec::new(),
    }
}

fn pairs_of(rows: &[Row], snr: &[f64]) -> Vec<StarPair> {
    let with_snr = |(&row, &snr)| pair(row, 0, snr);
    rows.iter().zip(snr).map(with_snr).collect()
}

/// The untouched fit: libm's powers, terms summed in the order of a hash map.
pub fn fit_sip(rows: &[Row], snr: &[f64], wcs: Wcs, order: u32) -> Fit<Sip> {
    plain(sip::run(&pairs_of(rows, snr), &wcs_of(wcs), order))
}

/// The same text with repeated products for powers and the sum in the order of the terms.
pub fn fit_sip_in_order(rows: &[Row], snr: &[f64], wcs: Wcs, order: u32) -> Fit<Sip> {
    plain(sip_in_order::run(&pairs_of(rows, snr), &wcs_of(wcs), order))
}
