//! The affine of three rows, and the score of pairs by it.

use crate::call::call;
use crate::ffi::*;
use crate::{Result, Rows, done, size};

/// From the pixels to the plane: xi = a11 x + a12 y + tx, eta = a21 x + a22 y + ty.
#[derive(Clone, Copy, Debug, PartialEq)]
pub struct Affine {
    pub a11: f64,
    pub a12: f64,
    pub tx: f64,
    pub a21: f64,
    pub a22: f64,
    pub ty: f64,
}

impl Affine {
    fn numbers(self) -> [f64; 6] {
        [self.a11, self.a12, self.tx, self.a21, self.a22, self.ty]
    }

    fn of([a11, a12, tx, a21, a22, ty]: [f64; 6]) -> Affine {
        Affine { a11, a12, tx, a21, a22, ty }
    }
}

/// The affine that three rows determine.
///
/// ```
/// use moorspindle::affine::fit_affine_3pt;
/// use moorspindle::{Refusal, Rows};
///
/// let px = [0.0, 9.0, 0.0];
/// let rows = Rows { px: &px, py: &[0.0, 0.0, 9.0], xi: &[5.0, 14.0, 5.0], eta: &[0.0, 0.0, 9.0] };
/// assert_eq!(fit_affine_3pt(rows, [0, 1, 2])?.tx, 5.0);
/// assert_eq!(fit_affine_3pt(rows, [0, 1, 3]), Err(Refusal::Place));
/// # Ok::<(), Refusal>(())
/// ```
pub fn fit_affine_3pt(rows: Rows, [a, b, c]: [u8; 3]) -> Result<Affine> {
    let Rows { px, py, xi, eta } = rows;
    let mut affine = [0.0; 6];
    done(call!(moorspindle_fit_affine_3pt(in px, in py, in xi, in eta, a, b, c, out affine)))?;
    Ok(Affine::of(affine))
}

/// How many rows are within a number of pixels.
///
/// ```
/// use moorspindle::Rows;
/// use moorspindle::affine::{Affine, count_affine_inliers};
///
/// let unit = Affine { a11: 1.0, a12: 0.0, tx: 0.0, a21: 0.0, a22: 1.0, ty: 0.0 };
/// let rows = Rows { px: &[0.0, 9.0], py: &[0.0, 0.0], xi: &[0.5, 9.0], eta: &[0.0, 7.0] };
/// assert_eq!(count_affine_inliers(rows, unit, 1.0)?, 1);
/// # Ok::<(), moorspindle::Refusal>(())
/// ```
pub fn count_affine_inliers(rows: Rows, affine: Affine, threshold: f64) -> Result<usize> {
    let Rows { px, py, xi, eta } = rows;
    let mut inliers = 0;
    done(call!(moorspindle_count_affine_inliers(
        in px, in py, in xi, in eta, in affine.numbers(), threshold, num inliers
    )))?;
    Ok(size(inliers))
}

/// The most rows, within 10 pixels, of the affines of a thousand drawn triples.
///
/// ```
/// use moorspindle::{Rows, affine};
///
/// let px = [0.0, 900.0, 0.0, 900.0];
/// let py = [0.0, 0.0, 900.0, 900.0];
/// assert_eq!(affine::verify_pairs(Rows { px: &px, py: &py, xi: &px, eta: &py })?, 4);
/// # Ok::<(), moorspindle::Refusal>(())
/// ```
pub fn verify_pairs(rows: Rows) -> Result<usize> {
    let Rows { px, py, xi, eta } = rows;
    let mut score = 0;
    done(call!(moorspindle_verify_pairs(in px, in py, in xi, in eta, num score)))?;
    Ok(size(score))
}
