//! The record. Each pointer comes from a Rust reference and goes with its length, and what is lent to
//! be written overlaps nothing else.

use super::ffi::*;
use crate::stack::called;

/// What a record is written of.
#[derive(Clone, Copy)]
pub struct Solution<'a> {
    pub rows_used: u64,
    pub wcs: &'a [f64],
    pub order: u32,
    pub a: &'a [f64],
    pub b: &'a [f64],
    pub sums: &'a [f64],
}

pub fn write_record(of: Solution, text: &mut [u8], written: &mut u64) -> u32 {
    called(|| unsafe {
        moorspindle_write_record(
            of.rows_used,
            of.wcs.as_ptr(),
            of.wcs.len(),
            of.order,
            of.a.as_ptr(),
            of.a.len(),
            of.b.as_ptr(),
            of.b.len(),
            of.sums.as_ptr(),
            of.sums.len(),
            text.as_mut_ptr(),
            text.len(),
            written,
        )
    })
}

/// What a record is read into.
pub struct Lent<'a> {
    pub format: u32,
    pub rows_used: u64,
    pub wcs: &'a mut [f64],
    pub order: u32,
    pub a: &'a mut [f64],
    pub b: &'a mut [f64],
    pub sums: &'a mut [f64],
    /// The number of the first wrong line.
    pub line: u64,
}

pub fn read_record(text: &[u8], lent: &mut Lent) -> u32 {
    called(|| unsafe {
        moorspindle_read_record(
            text.as_ptr(),
            text.len(),
            &mut lent.format,
            &mut lent.rows_used,
            lent.wcs.as_mut_ptr(),
            lent.wcs.len(),
            &mut lent.order,
            lent.a.as_mut_ptr(),
            lent.a.len(),
            lent.b.as_mut_ptr(),
            lent.b.len(),
            lent.sums.as_mut_ptr(),
            lent.sums.len(),
            &mut lent.line,
        )
    })
}
