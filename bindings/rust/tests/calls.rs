//! Each call once done and once refused. The answers themselves are proved; these show that they
//! come through.

use moorspindle::affine::{Affine, count_affine_inliers, fit_affine_3pt, verify_pairs};
use moorspindle::matching::{
    Detections, Ids, Index, Match, Matches, Results, extract_pairs, find_matches,
    find_matches_indexed,
};
use moorspindle::plate::{self, Cd, Clip, Run, Wcs};
use moorspindle::quad::{self, Quads, Star};
use moorspindle::record::{Solution, WrongLine, write_record};
use moorspindle::sip::{Sip, fit_sip, terms};
use moorspindle::{Refusal, Rows, floats};

/// The corners of a square.
const XS: [f64; 4] = [0.0, 1.0, 0.0, 1.0];
const YS: [f64; 4] = [0.0, 0.0, 1.0, 1.0];

/// The unit plate: xi is x, eta is y; the last row is off by 3 and 4 pixels.
const ROWS: Rows = Rows {
    px: &[0.0, 9.0, 0.0, 9.0, 5.0],
    py: &[0.0, 0.0, 9.0, 9.0, 5.0],
    xi: &[0.0, 9.0, 0.0, 9.0, 8.0],
    eta: &[0.0, 0.0, 9.0, 9.0, 9.0],
};

const UNIT: Cd = Cd { cd1_1: 1.0, cd1_2: 0.0, xi0: 0.0, cd2_1: 0.0, cd2_2: 1.0, eta0: 0.0 };

const WCS: Wcs = Wcs { crpix1: 0.0, crpix2: 0.0, cd1_1: 1.0, cd1_2: 0.0, cd2_1: 0.0, cd2_2: 1.0 };

#[test]
fn floats_of_every_kind() {
    assert_eq!(floats::root(2.0), std::f64::consts::SQRT_2);
    assert!(floats::root(-1.0).is_nan());
    assert_eq!(floats::floor(-0.5), -1);
    assert_eq!(floats::magnitude(-2.5), 2.5);
    assert_eq!(floats::power(1.5, 2), 2.25);
}

#[test]
fn quads_of_a_square() {
    assert_eq!(quad::find_spine(&XS, &YS, [0, 1, 2, 3]), Ok([0, 3, 1, 2]));
    assert_eq!(quad::find_spine(&XS, &YS, [0, 1, 2, 4]), Err(Refusal::Place));
    let (a, b) = (Star { x: 1.0, y: 1.0, place: 3 }, Star { x: 0.0, y: 0.0, place: 0 });
    assert_eq!(quad::orient_spine(a, b), Ok([0, 3]));
    let square = quad::normalize_quad_ordered(&XS, &YS, [0, 3, 1, 2]).unwrap();
    assert_eq!(square.hash, [0.5, -0.5, 0.5, 0.5]);
    assert_eq!(quad::normalize_quad_ordered(&XS, &YS, [1, 1, 0, 2]), Err(Refusal::Degenerate));
    assert_eq!(quad::discrete_hash_key(square.hash), 0x0226_0226_01c2_0226);
    assert_eq!(quad::discrete_hash_key_neighbors(square.hash)[0], 0x0225_0225_01c1_0225);
    let quads = quad::neighbor_quads(&XS, &YS, 3, 0.0).unwrap();
    assert_eq!(quads.iter().collect::<Vec<_>>(), [square]);
    assert_eq!(quad::neighbor_quads(&XS, &YS, 11, 0.0), Err(Refusal::Count));
}

#[test]
fn sets_of_four() {
    let sets: Vec<[u8; 4]> = quad::combinations_4(5).unwrap().collect();
    assert_eq!(sets, [[0, 1, 2, 3], [0, 1, 2, 4], [0, 1, 3, 4], [0, 2, 3, 4], [1, 2, 3, 4]]);
    assert_eq!(quad::combinations_4(3).unwrap().count(), 0);
    assert_eq!(quad::combinations_4(101).unwrap_err(), Refusal::Count);
}

#[test]
fn matches_and_pairs() {
    let quads = quad::neighbor_quads(&XS, &YS, 3, 0.0).unwrap();
    let matches = find_matches(&quads, &quads).unwrap();
    let both = [0, 3, 1, 2];
    assert_eq!(matches.iter().collect::<Vec<_>>(), [Match { image: both, catalogue: both }]);
    assert!(find_matches(&quads, &Quads::default()).unwrap().is_empty());

    // twice the same match: two votes for each pair
    let twice: Matches = matches.iter().chain(matches.iter()).collect();
    let detections = Detections { x: &XS, y: &YS, snr: &[5.0; 4] };
    let ids = Ids { image: &[0, 1, 2, 3], catalogue: &[7, 8, 9, -1] };
    let results = Results { ids: &[7, 8, 9, -1], ra: &[10.0; 4], dec: &[20.0; 4] };
    let pairs = extract_pairs(&twice, detections, ids, results).unwrap();
    assert_eq!(pairs.iter().map(|pair| pair.votes).collect::<Vec<_>>(), [2; 4]);
    let one = Detections { x: &XS[..1], y: &YS[..1], snr: &[5.0] };
    assert_eq!(extract_pairs(&twice, one, ids, results), Err(Refusal::Place));
}

#[test]
fn matches_by_an_index() {
    let square = quad::neighbor_quads(&XS, &YS, 3, 0.0).unwrap();
    let bent = quad::neighbor_quads(&XS, &[0.0, 0.1, 1.0, 1.0], 3, 0.0).unwrap();
    let many: Quads = (0..150).flat_map(|_| square.iter().chain(bent.iter())).collect();
    let index = Index::build(&many).unwrap();
    for image in [&square, &bent, &many, &Quads::default()] {
        let plain = find_matches(image, &many);
        assert_eq!(find_matches_indexed(image, &many, &index), plain);
    }
    // more than there is room for at first
    assert!(find_matches_indexed(&many, &many, &index).unwrap().len() >= 2 * 150 * 150);

    assert_eq!(find_matches_indexed(&square, &bent, &index), Err(Refusal::Index));
    let other = Index::build(&square).unwrap();
    assert_eq!(find_matches_indexed(&square, &many, &other), Err(Refusal::Index));
    assert_eq!(find_matches_indexed(&square, &bent, &other), Err(Refusal::Index));

    let none = Index::build(&Quads::default()).unwrap();
    assert_eq!(find_matches_indexed(&many, &Quads::default(), &none), Ok(Matches::default()));
    assert_eq!(find_matches_indexed(&many, &square, &none), Err(Refusal::Index));
    let long: Quads = (0..12_001).flat_map(|_| square.iter()).collect();
    assert_eq!(Index::build(&long), Err(Refusal::Count));
}

#[test]
fn lists_by_reference() {
    let square = quad::neighbor_quads(&XS, &YS, 3, 0.0).unwrap();
    let quads: Quads = square.iter().chain(&square).chain(&square).collect();
    let mut left = quads.iter();
    for (passed, quad) in (&quads).into_iter().enumerate() {
        assert_eq!(left.len(), 3 - passed);
        assert_eq!((left.next(), square.iter().next()), (Some(quad), Some(quad)));
    }
    assert_eq!((left.len(), left.next()), (0, None));

    let matches = find_matches(&quads, &square).unwrap();
    let mut left = matches.iter();
    for (passed, found) in (&matches).into_iter().enumerate() {
        assert_eq!(left.len(), 3 - passed);
        assert_eq!(left.next(), Some(found));
    }
    assert_eq!((left.len(), left.next()), (0, None));
}

/// Their lowest 32 bits alone would be taken.
#[cfg(target_pointer_width = "64")]
#[test]
fn counts_above_32_bits() {
    const MANY: usize = (1 << 32) + 3;
    assert_eq!(quad::combinations_4(MANY).unwrap_err(), Refusal::Count);
    assert_eq!(quad::neighbor_quads(&XS, &YS, MANY, 0.0), Err(Refusal::Count));
    assert_eq!(plate::ransac_fit(ROWS, &[3; 5], 1.0, MANY), Err(Refusal::Count));
    let sip = Sip { rows_used: MANY, ..bent() };
    assert_eq!(write_record(&sip, WCS), Err(Refusal::Count));
}

#[test]
fn affine_of_three_rows() {
    let unit = Affine { a11: 1.0, a12: 0.0, tx: 0.0, a21: 0.0, a22: 1.0, ty: 0.0 };
    assert_eq!(fit_affine_3pt(ROWS, [0, 1, 2]), Ok(unit));
    assert_eq!(fit_affine_3pt(ROWS, [0, 0, 1]), Err(Refusal::Degenerate));
    assert_eq!(count_affine_inliers(ROWS, unit, 1.0), Ok(4));
    assert_eq!(verify_pairs(ROWS), Ok(5));
    assert_eq!(verify_pairs(Rows { px: &[], ..ROWS }), Err(Refusal::Lengths));
}

#[test]
fn plate_of_rows() {
    let four = [true, true, true, true, false];
    assert_eq!(plate::fit_cd_matrix_6(ROWS, &four), Ok(UNIT));
    assert_eq!(plate::fit_cd_weighted(ROWS, &four, &[2.0; 5]), Ok(UNIT));
    assert_eq!(plate::fit_cd_matrix_6(ROWS, &[false; 5]), Err(Refusal::Degenerate));
    assert_eq!(plate::compute_pixel_errors(ROWS, &[true; 5], UNIT).unwrap()[4], 5.0);
    let residuals = plate::compute_residuals(ROWS, WCS).unwrap();
    assert_eq!((residuals.len(), residuals[4].px), (5, 5.0));
    assert_eq!(plate::rms_error(&[3.0, 3.0]), Ok(3.0));
    assert_eq!(plate::weighted_rms_error(&[3.0], &[]), Err(Refusal::Lengths));
    assert_eq!(
        plate::solve_normal_equations(&[0.0, 2.0, 4.0, 0.0], &[6.0, 8.0]),
        Ok(vec![2.0, 3.0])
    );
}

#[test]
fn run_and_clip() {
    let four = vec![true, true, true, true, false];
    assert_eq!(plate::ransac_fit(ROWS, &[3; 5], 1.0, 1000), Ok(Run::Fitted(four)));
    let all = vec![true; 5];
    assert_eq!(plate::ransac_fit(ROWS, &[30, 9, 9, 9, 9], 1.0, 1000), Ok(Run::Untested(all)));
    assert_eq!(plate::ransac_fit(ROWS, &[3; 5], 1.0, 0), Err(Refusal::Few));

    let low = Rows { px: &[0.125; 3], py: &[0.0; 3], xi: &[0.0; 3], eta: &[0.0; 3] };
    let mut mask = [true; 3];
    let clip = plate::sigma_clip_loop_weighted(low, &mut mask, UNIT, &[5e-324; 3]);
    assert_eq!((clip, mask), (Ok(Clip::Done(UNIT)), [false; 3]));
    let refused = plate::sigma_clip_loop_weighted(low, &mut mask, UNIT, &[f64::NAN; 3]);
    assert_eq!(refused, Err(Refusal::Value));
}

#[test]
fn sip_and_record() {
    let rows = Rows {
        px: &[1.0, -1.0, 1.0, -1.0, 1.0, -1.0],
        py: &[0.0, 0.0, 1.0, 1.0, -1.0, -1.0],
        xi: &[0.5, -1.5, 0.5, -1.5, 0.5, -1.5],
        eta: &[0.0, 0.0, 1.0, 1.0, -1.0, -1.0],
    };
    let sip = fit_sip(rows, &[1.0; 6], WCS, 2).unwrap();
    assert_eq!((sip.rows_used, &*sip.a, &*sip.b), (6, &[0.5, 0.0, 0.0][..], &[0.0; 3][..]));
    assert_eq!(terms(3).collect::<Vec<_>>()[2..5], [(0, 2), (3, 0), (2, 1)]);
    let text = write_record(&sip, WCS).unwrap();
    assert!(text.starts_with("format=2\nrows=6\ncrpix1=0000000000000000\n"));
    assert!(text.contains("\norder=2\na_2_0=bfe0000000000000\nlinear_rms=3fe0000000000000\n"));
    // what the line holds is added to a pixel to reach its ideal place
    let held = f64::from_bits(0xbfe0_0000_0000_0000);
    assert!(rows.px.iter().zip(rows.xi).all(|(u, xi)| u + held * u * u == *xi));
    assert_eq!(fit_sip(rows, &[1.0; 6], WCS, 3), Err(Refusal::Rows));
    assert_eq!(fit_sip(rows, &[1.0; 6], WCS, 6), Err(Refusal::Order));
}

/// A fit with coefficients of every kind.
fn bent() -> Sip {
    Sip {
        order: 3,
        a: vec![0.5, 0.0, f64::INFINITY, 0.0, 0.0, -2.0, 0.0],
        b: vec![0.0, 1e-300, 0.0, f64::NAN, 0.0, 0.0, 3.25],
        rows_used: 42,
        linear_rms: 0.5,
        rms: -0.0,
        wrms: 5e-324,
    }
}

#[test]
fn record_read_back() {
    let text = Solution { sip: bent(), wcs: WCS }.write().unwrap();
    let (solution, format) = Solution::read_format(&text).unwrap();
    // of the second axis the NaN and 1e-300 are dropped
    let kept = Sip { b: vec![0.0, 0.0, 0.0, 0.0, 0.0, 0.0, 3.25], ..bent() };
    assert_eq!((&solution, format), (&Solution { sip: kept, wcs: WCS }, 2));
    assert!(solution.sip.rms.is_sign_negative());
    let dropped = |axis: &[f64]| axis.iter().filter(|c| c.to_bits() == 0).count();
    assert_eq!((dropped(&solution.sip.a), dropped(&solution.sip.b)), (4, 6));
    assert_eq!(solution.to_bytes(), Ok(text.clone().into_bytes()));
    assert_eq!(Solution::read(text.as_bytes()), Ok(solution));
}

#[test]
fn record_of_format_1() {
    let new = Solution { sip: bent(), wcs: WCS }.write().unwrap();
    assert!(new.contains("\na_2_0=bfe0000000000000\na_0_2=fff0000000000000\na_1_2=4"));
    assert!(new.contains("\nb_0_3=c00a000000000000\n"));
    // as it was written before: the coefficients with their own signs
    let turned = [("2_0=b", "2_0=3"), ("0_2=f", "0_2=7"), ("1_2=4", "1_2=c"), ("0_3=c", "0_3=4")];
    let marked = new.replace("format=2", "format=1");
    let old = turned.iter().fold(marked, |text, (new, old)| text.replace(new, old));
    let (solution, format) = Solution::read_format(&old).unwrap();
    assert_eq!((format, Solution::read_format(&new)), (1, Ok((solution.clone(), 2))));
    assert_eq!(solution.write(), Ok(new));
}

#[test]
fn text_that_is_no_record() {
    let text = Solution { sip: bent(), wcs: WCS }.write().unwrap();
    let wrong = |text: &str| Solution::read(text).unwrap_err().line;
    assert_eq!(wrong(""), 1);
    assert_eq!(wrong(&text.replace("format=2", "format=3")), 1);
    assert_eq!(wrong(&text.replace("rows=42", "rows=101")), 2);
    assert_eq!(wrong(&text.replace("crpix1=000", "crpix1=7ff")), 3);
    assert_eq!(wrong(&text.replace("b_0_3=", "b_0_4=")), 13);
    assert_eq!(wrong(text.trim_end()), 16);
    assert_eq!(wrong(&(text.clone() + "\n")), 17);
    assert_eq!(WrongLine { line: 7 }.to_string(), "line 7 of the record is wrong");
}

#[test]
fn a_refusal_says_why() {
    let refusal = quad::combinations_4(101).unwrap_err();
    assert_eq!((refusal.number(), refusal.to_string()), (1, "a count is outside its limit".into()));
    let words = "the index does not belong to this list".to_string();
    assert_eq!((Refusal::Index.number(), Refusal::Index.to_string()), (11, words));
}
