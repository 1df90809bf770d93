//! A stand-in: what the sources import of celestial-coords.

pub mod errors {
    pub type CoordResult<T> = Result<T, String>;
}
