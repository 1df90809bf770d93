//! The Rust's quad.rs, unchanged, with stand-ins for what it imports.
#![allow(dead_code)]

pub mod query {
    pub use catalog::{Catalog, StarRecord};
    pub use cone::{cone_search, ConeSearchParams, ConeSearchResult};
    pub use quad::{
        combinations_4, discrete_hash_key, discrete_hash_key_neighbors, find_spine, neighbor_quads,
        normalize_quad_ordered, orient_spine, tan_deproject_star, Combinations4, Quad, QuadStar,
    };

    /// In place of quad.rs's own, which is not ported: rows that count as projected pass unchanged.
    pub fn tan_project_star(ra: f64, dec: f64, _: f64, _: f64) -> Option<(f64, f64)> {
        Some((ra, dec))
    }

    mod quad {
        include!(concat!(env!("OUT_DIR"), "/quad.rs"));

        // The state of the combinations is private to quad.rs, and a call of ours.
        impl Combinations4 {
            pub fn from_state(n: usize, current: [usize; 4], done: bool) -> Self {
                Combinations4 { n, current, done }
            }

            pub fn state(&self) -> ([usize; 4], bool) {
                (self.current, self.done)
            }
        }
    }

    mod catalog {
        pub struct Catalog;

        #[derive(Debug, Clone)]
        pub struct StarRecord {
            pub source_id: i64,
            pub mag: f32,
        }
    }

    mod cone {
        use super::{Catalog, StarRecord};
        use celestial_coords::errors::CoordResult;
        use celestial_time::julian::JulianDate;

        pub struct ConeSearchParams {
            pub ra_deg: f64,
            pub dec_deg: f64,
            pub radius_deg: f64,
            pub max_mag: Option<f64>,
            pub max_results: Option<usize>,
            pub epoch: Option<JulianDate>,
        }

        #[derive(Debug, Clone)]
        pub struct ConeSearchResult {
            pub star: StarRecord,
            pub ra_deg: f64,
            pub dec_deg: f64,
        }

        pub fn cone_search(
            _: &Catalog,
            _: &ConeSearchParams,
        ) -> CoordResult<Vec<ConeSearchResult>> {
            Err("the search is not ported".to_string())
        }
    }
}
