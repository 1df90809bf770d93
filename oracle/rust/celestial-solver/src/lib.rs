//! The Rust's matching and fitting, unchanged, reached through thin functions over plain numbers.
//!
//! A fit that the Rust refuses comes back as the text of its error.
#![allow(dead_code)]

pub mod fit_wcs;
pub mod match_field;

/// A row: px, py, xi, eta.
pub type Row = (f64, f64, f64, f64);

/// A fit's answer, or the text of the Rust's error.
pub type Fit<T> = Result<T, String>;

/// A stand-in for the detector's star, which is not ported.
pub mod detect {
    #[derive(Debug, Clone)]
    pub struct DetectedStar {
        pub x: f64,
        pub y: f64,
        pub snr: f64,
    }
}

/// A row as the pair that it counts as: the stub's projection hands xi and eta back.
fn pair((px_x, px_y, ra_deg, dec_deg): Row, votes: usize, snr: f64) -> match_field::StarPair {
    match_field::StarPair { px_x, px_y, ra_deg, dec_deg, votes, snr }
}
