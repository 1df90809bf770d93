//! The calls of one side, by Moorspindle's signatures.

use celestial_solver::fit_wcs;

use crate::ours::cd::Errors;
use crate::ours::matching::{Pairs, Quads, Rows, Voters};
use crate::ours::record::Solution;
use crate::ours::run::{Draw, Ran};
use crate::ours::sip::Lent;
use crate::{ours, theirs};

type NeighborQuads = fn(&[f64], &[f64], u32, f64, &mut [u8], &mut [f64], &mut u64) -> u32;

pub struct Side {
    pub neighbor_quads: NeighborQuads,
    pub build_hash_index: fn(&[f64], &mut [u64]) -> u32,
    pub find_matches_indexed: fn(Quads, Quads, &[u64], &mut [u8], &mut u64) -> u32,
    pub extract_pairs: fn(&[u8], Voters, &mut Pairs, &mut u64) -> u32,
    pub verify_pairs: fn(Rows, &mut u64) -> u32,
    pub ransac_fit: fn(Rows, Draw, &mut [u8], &mut Ran) -> u32,
    pub fit_cd_weighted: fn(Rows, &[u8], &[f64], &mut [f64]) -> u32,
    pub sigma_clip: fn(Rows, &mut [u8], &mut [f64], &[f64]) -> u32,
    pub compute_residuals: fn(Rows, &[f64], &mut Errors, &mut u64) -> u32,
    pub rms_error: fn(&[f64], &mut f64) -> u32,
    pub weighted_rms_error: fn(&[f64], &[f64], &mut f64) -> u32,
    pub fit_sip: fn(Rows, &[f64], &[f64], u32, &mut Lent) -> u32,
    pub write_record: fn(Solution, &mut [u8], &mut u64) -> u32,
}

pub const OURS: Side = Side {
    neighbor_quads: ours::neighbor_quads,
    build_hash_index: ours::matching::build_hash_index,
    find_matches_indexed: ours::matching::find_matches_indexed,
    extract_pairs: ours::matching::extract_pairs,
    verify_pairs: ours::matching::verify_pairs,
    ransac_fit: ours::run::ransac_fit,
    fit_cd_weighted: ours::cd::fit_cd_weighted,
    sigma_clip: ours::run::sigma_clip_loop_weighted,
    compute_residuals: ours::cd::compute_residuals,
    rms_error: ours::cd::rms_error,
    weighted_rms_error: ours::cd::weighted_rms_error,
    fit_sip: ours::sip::fit_sip,
    write_record: ours::record::write_record,
};

/// The untouched Rust, but for the SIP fit's powers and order, and for the record, which it has not.
pub const THEIRS: Side = Side {
    neighbor_quads: theirs::quad::neighbor_quads,
    build_hash_index: theirs::matching::build_hash_index,
    find_matches_indexed: theirs::matching::find_matches_indexed,
    extract_pairs: theirs::matching::extract_pairs,
    verify_pairs: theirs::matching::verify_pairs,
    ransac_fit: theirs::run::ransac_fit_untouched,
    fit_cd_weighted: theirs::cd::fit_cd_weighted,
    sigma_clip: theirs::run::sigma_clip_loop_weighted,
    compute_residuals: theirs::cd::compute_residuals,
    rms_error: theirs::cd::rms_error,
    weighted_rms_error: theirs::cd::weighted_rms_error,
    fit_sip: |rows, snr, wcs, order, lent| {
        theirs::sip::fit_sip_by(fit_wcs::fit_sip_in_order, rows, snr, wcs, order, lent)
    },
    write_record: theirs::record::write_record,
};

/// The SIP fit of the untouched Rust.
pub fn fit_sip_untouched(rows: Rows, snr: &[f64], wcs: &[f64], order: u32, lent: &mut Lent) -> u32 {
    theirs::sip::fit_sip_by(fit_wcs::fit_sip, rows, snr, wcs, order, lent)
}
