//! The run and the clip of cd_matrix.rs behind Moorspindle's signatures.

use celestial_solver::{Fit, Row, fit_wcs};

use super::cd::{six, test_mask};
use super::rows::rows_of;
use super::{COUNT, DEGENERATE, FEW, LENGTHS, ROOM, VALUE};
use super::{is_finite, is_limit, number, put, refuse};
use crate::ours::matching::Rows;
use crate::ours::run::{Draw, Ran};

const MOST: usize = 100; // rows, votes
const MOST_TRIALS: u32 = 1000;

/// A run of the Rust's: rows, votes, the limit and the number of trials.
type Run = fn(&[Row], &[usize], f64, usize) -> Fit<Vec<bool>>;

pub fn ransac_fit(rows: Rows, draw: Draw, mask: &mut [u8], ran: &mut Ran) -> u32 {
    ransac_fit_by(fit_wcs::ransac_fit_of, rows, draw, mask, ran)
}

/// By the untouched text, whose number of trials is fixed.
pub fn ransac_fit_untouched(rows: Rows, draw: Draw, mask: &mut [u8], ran: &mut Ran) -> u32 {
    assert_eq!(draw.trials, MOST_TRIALS);
    let run: Run = |rows, votes, limit, _| fit_wcs::ransac_fit(rows, votes, limit);
    ransac_fit_by(run, rows, draw, mask, ran)
}

fn ransac_fit_by(run: Run, rows: Rows, draw: Draw, mask: &mut [u8], ran: &mut Ran) -> u32 {
    number(|| {
        let Draw { votes, limit, trials } = draw;
        let long = votes.len() > MOST || rows.iter().any(|list| list.len() > MOST);
        refuse(COUNT, long || trials > MOST_TRIALS)?;
        let rows = rows_of(rows)?;
        refuse(VALUE, !is_limit(limit))?;
        refuse(ROOM, mask.len() < rows.len())?;
        let votes: Vec<usize> = votes.iter().map(|&v| v as usize).collect();
        let found = run(&rows, &votes, limit, trials as usize);
        let on: Vec<u8> = found.map_err(|_| FEW)?.iter().map(|&on| u8::from(on)).collect();
        put(mask, &on);
        let least = votes.iter().max().map_or(0, |most| most / 3);
        let pool = votes.iter().take(rows.len()).filter(|&&v| v >= least).count();
        ran.tested = u8::from(pool >= 3);
        ran.on = on.iter().map(|&byte| u64::from(byte)).sum();
        Ok(())
    })
}

/// On an error of the Rust what it leaves in the mask and in the CD is left here too.
pub fn sigma_clip_loop_weighted(
    rows: Rows,
    mask: &mut [u8],
    cd: &mut [f64],
    weights: &[f64],
) -> u32 {
    number(|| {
        let lists = mask.len().max(weights.len());
        refuse(COUNT, lists > MOST || rows.iter().any(|list| list.len() > MOST))?;
        refuse(LENGTHS, cd.len() != 6)?;
        let mut on = test_mask(rows, mask, Some(weights))?;
        let rows = rows_of(rows)?;
        refuse(VALUE, cd.iter().any(|&x| !is_finite(x)))?;
        let mut held = six(cd);
        let done = fit_wcs::sigma_clip_loop_weighted(&rows, &mut on, &mut held, weights);
        put(cd, &held);
        put(mask, &on.iter().map(|&on| u8::from(on)).collect::<Vec<_>>());
        done.map_err(|_| DEGENERATE)
    })
}
