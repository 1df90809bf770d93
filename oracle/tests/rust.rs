//! That the Rust is reached as it should be: worked examples, and the edited texts beside the
//! untouched ones.

use celestial_catalog::query::{
    Quad, QuadStar, discrete_hash_key, discrete_hash_key_neighbors, find_spine,
    normalize_quad_ordered,
};
use celestial_solver::Row;
use celestial_solver::fit_wcs::{
    fit_sip, fit_sip_in_order, ransac_fit, ransac_fit_of, sigma_clip_loop_weighted,
};
use celestial_solver::match_field::{build_hash_index, find_matches, verify_pairs};

/// Rows on a plate, bent a little; each fifth one is off.
fn plate() -> (Vec<Row>, Vec<usize>) {
    let row = |i: usize| {
        let (px, py) = ((i * 37 % 101) as f64 - 50.0, (i * 53 % 97) as f64 - 48.0);
        let off = if i % 5 == 4 { 30.0 + i as f64 } else { 0.0 };
        (px + px * px * 1e-4, py, 0.5 * px - 0.25 * py + off, 0.25 * px + 0.5 * py)
    };
    ((0..60).map(row).collect(), (0..60).map(|i| i % 7).collect())
}

#[test]
fn the_square_of_four_stars() {
    let star = |(x, y)| QuadStar { source_id: 0, x, y, mag: 0.0 };
    let stars = [(0.0, 0.0), (1.0, 0.0), (0.0, 1.0), (1.0, 1.0)].map(star);
    let (a, b, c, d) = find_spine(&stars, [0, 1, 2, 3]);
    let (hash, places) = normalize_quad_ordered(&stars, a, b, c, d).unwrap();
    assert_eq!((hash, places), ([0.5, -0.5, 0.5, 0.5], [0, 3, 1, 2]));
    assert_eq!(discrete_hash_key_neighbors(&hash)[0], 0x0225_0225_01c1_0225);
}

#[test]
fn the_index_has_the_places_of_each_key() {
    let quad = |(place, hash)| Quad { star_indices: [place; 4], hash: [hash; 4] };
    let catalogue = [(7, 0.5), (8, 0.9), (9, 0.5), (10, 0.51)].map(quad);
    let index = build_hash_index(&catalogue);
    assert_eq!(index[&discrete_hash_key(&[0.5; 4])], [0, 2]);
    let matches = find_matches(&catalogue[..1], &catalogue, &index);
    let places: Vec<usize> =
        matches.iter().map(|found| found.catalog_quad.star_indices[0]).collect();
    assert_eq!(places, [7, 9, 10]);
}

#[test]
fn the_draw_with_its_own_number_of_trials() {
    let (rows, votes) = plate();
    let drawn = ransac_fit(&rows, &votes, 1.0).unwrap();
    assert_eq!(ransac_fit_of(&rows, &votes, 1.0, 1000).unwrap(), drawn);
    assert_eq!(drawn.iter().filter(|&&on| on).count(), 48);
    assert!(ransac_fit_of(&rows, &votes, 1.0, 0).is_err());
    assert_eq!(verify_pairs(&rows), 48);
}

#[test]
fn a_clip_that_turns_all_off() {
    let rows = [(0.125, 0.0, 0.0, 0.0); 3];
    let (mut mask, mut cd) = ([true; 3], [1.0, 0.0, 0.0, 0.0, 1.0, 0.0]);
    sigma_clip_loop_weighted(&rows, &mut mask, &mut cd, &[f64::from_bits(1); 3]).unwrap();
    assert_eq!(mask, [false; 3]);
}

#[test]
fn sip_in_the_order_of_its_terms() {
    let (rows, snr) = (plate().0, [10.0; 60]);
    let wcs = [0.0, 0.0, 0.5, -0.25, 0.25, 0.5];
    for order in 2..=5 {
        let untouched = fit_sip(&rows, &snr, wcs, order).unwrap();
        let in_order = fit_sip_in_order(&rows, &snr, wcs, order).unwrap();
        assert_eq!(in_order.rows_used, untouched.rows_used);
        for (ours, theirs) in in_order.a.iter().zip(&untouched.a) {
            assert!((ours - theirs).abs() <= 1e-9 * theirs.abs().max(1e-9));
        }
    }
}
