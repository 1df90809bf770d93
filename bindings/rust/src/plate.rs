//! The CD plate: its fits, the run that finds it, the clip, errors, residuals and rms.

use crate::call::call;
use crate::ffi::*;
use crate::{Refusal, Result, Rows, count, done, size};

/// From a pixel to the plane: xi = cd1_1 x + cd1_2 y + xi0, eta = cd2_1 x + cd2_2 y + eta0.
#[derive(Clone, Copy, Debug, PartialEq)]
pub struct Cd {
    pub cd1_1: f64,
    pub cd1_2: f64,
    pub xi0: f64,
    pub cd2_1: f64,
    pub cd2_2: f64,
    pub eta0: f64,
}

impl Cd {
    fn numbers(self) -> [f64; 6] {
        [self.cd1_1, self.cd1_2, self.xi0, self.cd2_1, self.cd2_2, self.eta0]
    }

    fn of([cd1_1, cd1_2, xi0, cd2_1, cd2_2, eta0]: [f64; 6]) -> Cd {
        Cd { cd1_1, cd1_2, xi0, cd2_1, cd2_2, eta0 }
    }
}

/// A plate about a reference pixel: the point of the plane is the CD matrix times the pixel's offset.
#[derive(Clone, Copy, Debug, PartialEq)]
pub struct Wcs {
    pub crpix1: f64,
    pub crpix2: f64,
    pub cd1_1: f64,
    pub cd1_2: f64,
    pub cd2_1: f64,
    pub cd2_2: f64,
}

impl Wcs {
    pub(crate) fn numbers(self) -> [f64; 6] {
        [self.crpix1, self.crpix2, self.cd1_1, self.cd1_2, self.cd2_1, self.cd2_2]
    }

    pub(crate) fn of([crpix1, crpix2, cd1_1, cd1_2, cd2_1, cd2_2]: [f64; 6]) -> Wcs {
        Wcs { crpix1, crpix2, cd1_1, cd1_2, cd2_1, cd2_2 }
    }
}

/// A mask as the C face has it: a byte for each row, 1 where it is on.
fn bytes(mask: &[bool]) -> Vec<u8> {
    mask.iter().map(|&on| on.into()).collect()
}

/// The plate that fits the rows that are on.
///
/// ```
/// use moorspindle::{Refusal, Rows, plate};
///
/// let (px, py) = ([0.0, 9.0, 0.0, 9.0], [0.0, 0.0, 9.0, 9.0]);
/// let rows = Rows { px: &px, py: &py, xi: &[1.0, 10.0, 1.0, 77.0], eta: &py };
/// assert_eq!(plate::fit_cd_matrix_6(rows, &[true, true, true, false])?.xi0, 1.0);
/// assert_eq!(plate::fit_cd_matrix_6(rows, &[false; 4]), Err(Refusal::Degenerate));
/// # Ok::<(), Refusal>(())
/// ```
pub fn fit_cd_matrix_6(rows: Rows, mask: &[bool]) -> Result<Cd> {
    let Rows { px, py, xi, eta } = rows;
    let mut cd = [0.0; 6];
    done(call!(moorspindle_fit_cd_matrix_6(
        in px, in py, in xi, in eta, in bytes(mask), out cd
    )))?;
    Ok(Cd::of(cd))
}

/// The same with a weight for each row.
///
/// ```
/// use moorspindle::{Rows, plate};
///
/// let (px, py) = ([0.0, 9.0, 0.0, 9.0], [0.0, 0.0, 9.0, 9.0]);
/// let rows = Rows { px: &px, py: &py, xi: &[1.0, 10.0, 1.0, 77.0], eta: &py };
/// assert_eq!(plate::fit_cd_weighted(rows, &[true; 4], &[4.0, 4.0, 4.0, 0.0])?.xi0, 1.0);
/// # Ok::<(), moorspindle::Refusal>(())
/// ```
pub fn fit_cd_weighted(rows: Rows, mask: &[bool], weights: &[f64]) -> Result<Cd> {
    let Rows { px, py, xi, eta } = rows;
    let mut cd = [0.0; 6];
    done(call!(moorspindle_fit_cd_weighted(
        in px, in py, in xi, in eta, in bytes(mask), in weights, out cd
    )))?;
    Ok(Cd::of(cd))
}

/// The error of each row in pixels; 0.0 where it is off.
///
/// ```
/// use moorspindle::Rows;
/// use moorspindle::plate::{Cd, compute_pixel_errors};
///
/// let unit = Cd { cd1_1: 1.0, cd1_2: 0.0, xi0: 0.0, cd2_1: 0.0, cd2_2: 1.0, eta0: 0.0 };
/// let rows = Rows { px: &[0.0, 5.0], py: &[0.0, 5.0], xi: &[3.0, 9.0], eta: &[4.0, 9.0] };
/// assert_eq!(compute_pixel_errors(rows, &[true, false], unit)?, [5.0, 0.0]);
/// # Ok::<(), moorspindle::Refusal>(())
/// ```
pub fn compute_pixel_errors(rows: Rows, mask: &[bool], cd: Cd) -> Result<Vec<f64>> {
    let Rows { px, py, xi, eta } = rows;
    let mut errors = vec![0.0; px.len()];
    done(call!(moorspindle_compute_pixel_errors(
        in px, in py, in xi, in eta, in bytes(mask), in cd.numbers(), out errors
    )))?;
    Ok(errors)
}

/// What a run finds: which rows are on.
#[derive(Clone, Debug, PartialEq)]
pub enum Run {
    /// The rows within the limit of the best plate of the run.
    Fitted(Vec<bool>),
    /// Fewer than three rows have votes enough: nothing was tested, and every row is on.
    Untested(Vec<bool>),
}

/// Of so many trials, each of which fits three rows, the plate with the most rows within the limit.
/// More than 1,000 trials are refused with [`Refusal::Count`].
///
/// ```
/// use moorspindle::Rows;
/// use moorspindle::plate::{Run, ransac_fit};
///
/// let (px, py) = ([0.0, 9.0, 0.0, 9.0, 5.0], [0.0, 0.0, 9.0, 9.0, 5.0]);
/// let rows = Rows { px: &px, py: &py, xi: &[0.0, 9.0, 0.0, 9.0, 77.0], eta: &py };
/// let on = vec![true, true, true, true, false];
/// assert_eq!(ransac_fit(rows, &[3; 5], 1.0, 1000)?, Run::Fitted(on));
/// # Ok::<(), moorspindle::Refusal>(())
/// ```
pub fn ransac_fit(rows: Rows, votes: &[u32], limit: f64, trials: usize) -> Result<Run> {
    let Rows { px, py, xi, eta } = rows;
    let (mut mask, mut tested, mut on) = (vec![0; px.len()], 0, 0);
    done(call!(moorspindle_ransac_fit(
        in px, in py, in xi, in eta, in votes, limit, count(trials),
        out mask, num tested, num on
    )))?;
    let mask = mask.into_iter().map(|byte| byte == 1).collect();
    Ok(if tested == 1 { Run::Fitted(mask) } else { Run::Untested(mask) })
}

/// How a clip ends.
#[derive(Clone, Copy, Debug, PartialEq)]
pub enum Clip {
    /// With the plate of the rows that are left.
    Done(Cd),
    /// At rows that cannot be fitted: the rejections stay, and this is the last good plate.
    Stopped(Cd),
}

/// Turns rows off that are further than three times the weighted rms, and fits the others anew, up
/// to ten times.
///
/// ```
/// use moorspindle::Rows;
/// use moorspindle::plate::{Cd, Clip, sigma_clip_loop_weighted};
///
/// let unit = Cd { cd1_1: 1.0, cd1_2: 0.0, xi0: 0.0, cd2_1: 0.0, cd2_2: 1.0, eta0: 0.0 };
/// let px: Vec<f64> = (0..20).map(f64::from).collect();
/// let py: Vec<f64> = (0..20).map(|i| f64::from(i * i)).collect();
/// let mut xi = px.clone();
/// xi[7] += 50.0;
/// let rows = Rows { px: &px, py: &py, xi: &xi, eta: &py };
/// let mut mask = [true; 20];
/// let clip = sigma_clip_loop_weighted(rows, &mut mask, unit, &[1.0; 20])?;
/// assert!(matches!(clip, Clip::Done(_)));
/// assert!(!mask[7] && mask.iter().filter(|&&on| on).count() == 19);
/// # Ok::<(), moorspindle::Refusal>(())
/// ```
pub fn sigma_clip_loop_weighted(
    rows: Rows,
    mask: &mut [bool],
    cd: Cd,
    weights: &[f64],
) -> Result<Clip> {
    let Rows { px, py, xi, eta } = rows;
    let (mut numbers, mut left) = (cd.numbers(), bytes(mask));
    let answer = done(call!(moorspindle_sigma_clip_loop_weighted(
        in px, in py, in xi, in eta, out left, out numbers, in weights
    )));
    for (on, byte) in mask.iter_mut().zip(left) {
        *on = byte == 1;
    }
    match answer {
        Ok(()) => Ok(Clip::Done(Cd::of(numbers))),
        Err(Refusal::Degenerate) => Ok(Clip::Stopped(Cd::of(numbers))),
        Err(why) => Err(why),
    }
}

/// What a row's pixel is away from where its point goes.
#[derive(Clone, Copy, Debug, PartialEq)]
pub struct Residual {
    pub x: f64,
    pub y: f64,
    pub px: f64,
}

/// The residual of each row; none where the plate's determinant is below 1e-30 in magnitude.
///
/// ```
/// use moorspindle::Rows;
/// use moorspindle::plate::{Residual, Wcs, compute_residuals};
///
/// let wcs = Wcs { crpix1: 1.0, crpix2: 0.0, cd1_1: 1.0, cd1_2: 0.0, cd2_1: 0.0, cd2_2: 1.0 };
/// let rows = Rows { px: &[7.0], py: &[9.0], xi: &[3.0], eta: &[5.0] };
/// assert_eq!(compute_residuals(rows, wcs)?, [Residual { x: 3.0, y: 4.0, px: 5.0 }]);
/// # Ok::<(), moorspindle::Refusal>(())
/// ```
pub fn compute_residuals(rows: Rows, wcs: Wcs) -> Result<Vec<Residual>> {
    let Rows { px, py, xi, eta } = rows;
    let [mut x, mut y, mut all] = [(); 3].map(|()| vec![0.0; px.len()]);
    let mut residuals = 0;
    done(call!(moorspindle_compute_residuals(
        in px, in py, in xi, in eta, in wcs.numbers(), out x, out y, out all, num residuals
    )))?;
    let residual = |i: usize| Residual { x: x[i], y: y[i], px: all[i] };
    Ok((0..size(residuals)).map(residual).collect())
}

/// The root mean square.
///
/// ```
/// assert_eq!(moorspindle::plate::rms_error(&[3.0, -3.0])?, 3.0);
/// # Ok::<(), moorspindle::Refusal>(())
/// ```
pub fn rms_error(errors: &[f64]) -> Result<f64> {
    let mut rms = 0.0;
    done(call!(moorspindle_rms_error(in errors, num rms)))?;
    Ok(rms)
}

/// The weighted root mean square.
///
/// ```
/// assert_eq!(moorspindle::plate::weighted_rms_error(&[3.0, 9.0], &[2.0, 0.0])?, 3.0);
/// # Ok::<(), moorspindle::Refusal>(())
/// ```
pub fn weighted_rms_error(errors: &[f64], weights: &[f64]) -> Result<f64> {
    let mut rms = 0.0;
    done(call!(moorspindle_weighted_rms_error(in errors, in weights, num rms)))?;
    Ok(rms)
}

/// The unknowns of as many equations as b has numbers; a is given row by row. More than 54 are
/// refused with [`Refusal::Count`].
///
/// ```
/// let (a, b) = ([0.0, 2.0, 4.0, 0.0], [6.0, 8.0]);
/// assert_eq!(moorspindle::plate::solve_normal_equations(&a, &b)?, [2.0, 3.0]);
/// # Ok::<(), moorspindle::Refusal>(())
/// ```
pub fn solve_normal_equations(a: &[f64], b: &[f64]) -> Result<Vec<f64>> {
    let (n, mut x) = (count(b.len()), vec![0.0; b.len()]);
    done(call!(moorspindle_solve_normal_equations(in a, in b, n, out x)))?;
    Ok(x)
}
