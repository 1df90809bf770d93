//! A stand-in: what the sources import of celestial-time.

pub mod julian {
    #[derive(Debug, Clone, Copy)]
    pub struct JulianDate;
}
