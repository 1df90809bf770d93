//! In place of `stack.rs` where no stack is measured.

use crate::Outcome;

#[inline(always)]
pub fn called<A>(call: impl FnOnce() -> A) -> A {
    call()
}

pub fn table(_count: usize) -> Outcome<Vec<String>> {
    Err("this build measures no stack: oracle/run stack makes the one that does".to_string())
}
