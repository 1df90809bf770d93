//! The Rust behind Moorspindle's signatures. The Rust refuses nothing here, so the refusals are
//! written out, in the order of their numbers, 10 before all and 11 after 4; past them the answer is the
//! Rust's own, put into what was lent.

pub mod cd;
pub mod matching;
pub mod quad;
pub mod record;
mod rows;
pub mod run;
pub mod sip;

/// The number of the first refusal, or what was asked for.
type Tested<T> = Result<T, u32>;

const COUNT: u32 = 1;
const LENGTHS: u32 = 2;
const VALUE: u32 = 3;
const PLACE: u32 = 4;
const ORDER: u32 = 5;
const ROWS: u32 = 6;
const ROOM: u32 = 7;
const DEGENERATE: u32 = 8;
const FEW: u32 = 9;
const FORM: u32 = 10;
const INDEX: u32 = 11;

fn refuse(number: u32, when: bool) -> Tested<()> {
    if when { Err(number) } else { Ok(()) }
}

/// The number of an answer: 0 is done.
fn number(answer: impl FnOnce() -> Tested<()>) -> u32 {
    answer().err().unwrap_or(0)
}

fn is_position(x: f64) -> bool {
    x.abs() <= 1_048_576.0
}

fn is_finite(x: f64) -> bool {
    x.is_finite()
}

/// -0.0 is one.
fn is_snr(x: f64) -> bool {
    (0.0..=1_048_576.0).contains(&x)
}

/// 0 to 2^40; -0.0 is one.
fn is_weight(x: f64) -> bool {
    (0.0..=1_099_511_627_776.0).contains(&x)
}

/// A least spine or an error limit; -0.0 is one.
fn is_limit(x: f64) -> bool {
    x >= 0.0 && x.is_finite()
}

/// Puts the values at the front, and leaves the places past them alone.
fn put<T: Copy>(lent: &mut [T], values: &[T]) {
    lent[..values.len()].copy_from_slice(values);
}
