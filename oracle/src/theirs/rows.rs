//! The rows of four lists.

use celestial_solver::Row;

use super::{COUNT, LENGTHS, Tested, VALUE, is_position, refuse};
use crate::ours::matching::Rows;

const MOST: usize = 100;

pub fn few_and_even(rows: Rows) -> Tested<()> {
    let [px, py, xi, eta] = rows.map(<[f64]>::len);
    refuse(COUNT, [px, py, xi, eta].into_iter().any(|n| n > MOST))?;
    refuse(LENGTHS, py != px || xi != px || eta != px)
}

/// The rows of four lists, which must be positions and as many.
pub fn rows_of(rows: Rows) -> Tested<Vec<Row>> {
    few_and_even(rows)?;
    refuse(VALUE, rows.into_iter().flatten().any(|&x| !is_position(x)))?;
    let [px, py, xi, eta] = rows;
    Ok((0..px.len()).map(|i| (px[i], py[i], xi[i], eta[i])).collect())
}
