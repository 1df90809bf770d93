//! The record of a solution: written, and read back.

use std::error::Error;
use std::fmt::{self, Display};

use crate::call::call;
use crate::ffi::*;
use crate::plate::Wcs;
use crate::sip::{Sip, terms};
use crate::{Result, done, size};

/// No record is longer.
const MOST_BYTES: usize = 1065;

/// No order has more terms.
const MOST_TERMS: usize = 18;

/// What a record shows: a fit, and the plate that it stands on.
///
/// ```
/// use moorspindle::plate::Wcs;
/// use moorspindle::record::Solution;
/// use moorspindle::sip::Sip;
///
/// let (a, b) = (vec![0.5, 0.0, 0.0], vec![0.0; 3]);
/// let sip = Sip { order: 2, a, b, rows_used: 6, linear_rms: 0.5, rms: 0.0, wrms: 0.0 };
/// let wcs = Wcs { crpix1: 0.0, crpix2: 0.0, cd1_1: 1.0, cd1_2: 0.0, cd2_1: 0.0, cd2_2: 1.0 };
/// let solution = Solution { sip, wcs };
/// let text = solution.write()?;
/// assert_eq!(Solution::read(&text), Ok(solution));
/// assert_eq!(Solution::read(text.replace("rows=6", "rows=06")).unwrap_err().line, 2);
/// # Ok::<(), moorspindle::Refusal>(())
/// ```
#[derive(Clone, Debug, PartialEq)]
pub struct Solution {
    pub sip: Sip,
    pub wcs: Wcs,
}

/// A text that is no record.
#[derive(Clone, Copy, Debug, PartialEq, Eq, Hash)]
pub struct WrongLine {
    /// The number, from 1, of the first line that cannot stand there: some record begins with the
    /// lines before it, and none with the lines up to it.
    pub line: usize,
}

impl Display for WrongLine {
    fn fmt(&self, f: &mut fmt::Formatter) -> fmt::Result {
        write!(f, "line {} of the record is wrong", self.line)
    }
}

impl Error for WrongLine {}

impl Solution {
    /// Reads a record of format 2 or 1. The coefficients are as they were solved, whichever it is,
    /// and one without a line is 0.0. Writing gives the same text again, or that of format 2.
    pub fn read(text: impl AsRef<[u8]>) -> std::result::Result<Solution, WrongLine> {
        Solution::read_format(text).map(|(solution, _)| solution)
    }

    /// The same, with the number of the format line.
    pub fn read_format(text: impl AsRef<[u8]>) -> std::result::Result<(Solution, u32), WrongLine> {
        let text = text.as_ref();
        let (mut format, mut rows_used, mut order, mut line) = (0, 0, 0, 0);
        let (mut a, mut b) = (vec![0.0; MOST_TERMS], vec![0.0; MOST_TERMS]);
        let (mut wcs, mut sums) = ([0.0; 6], [0.0; 3]);
        let number = call!(moorspindle_read_record(
            in text, num format, num rows_used, out wcs, num order, out a, out b, out sums, num line
        ));
        match number {
            0 => {}
            10 => return Err(WrongLine { line: size(line) }),
            other => unreachable!("there is room, and no record is refused by {other}"),
        }
        let n = terms(order).count();
        a.truncate(n);
        b.truncate(n);
        let [linear_rms, rms, wrms] = sums;
        let sip = Sip { order, a, b, rows_used: size(rows_used), linear_rms, rms, wrms };
        Ok((Solution { sip, wcs: Wcs::of(wcs) }, format))
    }

    /// Its record, in format 2.
    pub fn write(&self) -> Result<String> {
        write_record(&self.sip, self.wcs)
    }

    /// The bytes of its record.
    pub fn to_bytes(&self) -> Result<Vec<u8>> {
        self.write().map(String::into_bytes)
    }
}

/// The text of a solution in format 2: a line for each number, floats as the 16 hex digits of their
/// bits. The a and b lines hold the FITS SIP convention's coefficients, ideal minus pixel: those
/// that were solved, with their sign bits turned.
///
/// ```
/// use moorspindle::{plate::Wcs, record::write_record, sip::Sip};
///
/// let (a, b) = (vec![0.5, 0.0, 0.0], vec![0.0; 3]);
/// let sip = Sip { order: 2, a, b, rows_used: 6, linear_rms: 0.5, rms: 0.0, wrms: 0.0 };
/// let wcs = Wcs { crpix1: 0.0, crpix2: 0.0, cd1_1: 1.0, cd1_2: 0.0, cd2_1: 0.0, cd2_2: 1.0 };
/// let text = write_record(&sip, wcs)?;
/// assert!(text.starts_with("format=2\nrows=6\n"));
/// assert!(text.contains("\norder=2\na_2_0=bfe0000000000000\n"));
/// # Ok::<(), moorspindle::Refusal>(())
/// ```
pub fn write_record(sip: &Sip, wcs: Wcs) -> Result<String> {
    let (mut text, mut written) = (vec![0; MOST_BYTES], 0);
    let sums = [sip.linear_rms, sip.rms, sip.wrms];
    done(call!(moorspindle_write_record(
        sip.rows_used as u64, in wcs.numbers(), sip.order, in sip.a, in sip.b, in sums,
        out text, num written
    )))?;
    text.truncate(size(written));
    Ok(String::from_utf8(text).expect("a record is ASCII"))
}
