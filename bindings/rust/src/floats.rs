//! Arithmetic on every f64, NaN, infinities, both zeros and subnormals included.

use crate::ffi::*;

/// The value without its sign.
///
/// ```
/// assert_eq!(moorspindle::floats::magnitude(-2.5), 2.5);
/// ```
pub fn magnitude(x: f64) -> f64 {
    moorspindle_magnitude(x)
}

/// The greatest whole number that is not above x, held to the range of an i32; 0 for NaN.
///
/// ```
/// use moorspindle::floats::floor;
///
/// assert_eq!([-0.5, 1e10, f64::NAN].map(floor), [-1, i32::MAX, 0]);
/// ```
pub fn floor(x: f64) -> i32 {
    moorspindle_floor(x)
}

/// The nearest f64 to the exact root.
///
/// ```
/// assert_eq!(moorspindle::floats::root(2.0), std::f64::consts::SQRT_2);
/// ```
pub fn root(x: f64) -> f64 {
    moorspindle_root(x)
}

/// u^0 is 1, u^(p+1) is u^p times u, each product rounded.
///
/// ```
/// assert_eq!(moorspindle::floats::power(1.5, 3), 3.375);
/// ```
pub fn power(u: f64, p: u32) -> f64 {
    moorspindle_power(u, p)
}
