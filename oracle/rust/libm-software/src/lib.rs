//! libm's square root in software, which `libm::sqrt` itself is on Arm: on x86-64 that takes the
//! hardware's.

#![allow(unexpected_cfgs, clippy::all)] // for the text that is not ours

/// libm has a macro of this name, for another kind of host.
macro_rules! llvm_intrinsically_optimized {
    ($($other:tt)*) => {};
}

include!(concat!(env!("OUT_DIR"), "/sqrt.rs"));
