//! A stand-in: what the sources import of celestial-core.

pub mod constants {
    // Both are 1.0, so that rows that count as projected pass unchanged.
    pub const DEG_TO_RAD: f64 = 1.0;
    pub const RAD_TO_DEG: f64 = 1.0;
}
