//! From two lists of stars to the record of a plate. The stars are made up here: those of an image,
//! and those of a catalogue that are already projected, a turned, scaled and slightly bent copy.

use std::error::Error;

use moorspindle::matching::{self, Detections, Ids, Index, Results};
use moorspindle::plate::{self, Cd, Clip, Run, Wcs};
use moorspindle::{Rows, affine, quad, record, sip};

const STARS: usize = 60;

fn main() -> Result<(), Box<dyn Error>> {
    let (x, y) = image();
    let (xi, eta): (Vec<f64>, Vec<f64>) = x.iter().zip(&y).map(|(&x, &y)| sky(x, y)).unzip();

    // quads of both lists, and those of one shape, by an index that serves every image of the field
    let in_image = quad::neighbor_quads(&x, &y, 5, 0.0)?;
    let in_catalogue = quad::neighbor_quads(&xi, &eta, 5, 0.0)?;
    let index = Index::build(&in_catalogue)?;
    let matches = matching::find_matches_indexed(&in_image, &in_catalogue, &index)?;
    println!("{} and {} quads, {} matches", in_image.len(), in_catalogue.len(), matches.len());

    // each match votes for four pairs
    let snr = [20.0; STARS];
    let image_ids: Vec<u32> = (0..STARS as u32).collect();
    let catalogue_ids: Vec<i64> = (1000..1000 + STARS as i64).collect();
    let pairs = matching::extract_pairs(
        &matches,
        Detections { x: &x, y: &y, snr: &snr },
        Ids { image: &image_ids, catalogue: &catalogue_ids },
        Results { ids: &catalogue_ids, ra: &xi, dec: &eta },
    )?;

    // pairs are rows; which of them lie on one plate?
    let px: Vec<f64> = pairs.iter().map(|pair| pair.px).collect();
    let py: Vec<f64> = pairs.iter().map(|pair| pair.py).collect();
    let ra: Vec<f64> = pairs.iter().map(|pair| pair.ra).collect();
    let dec: Vec<f64> = pairs.iter().map(|pair| pair.dec).collect();
    let rows = Rows { px: &px, py: &py, xi: &ra, eta: &dec };
    println!("{} pairs, {} agree on an affine", pairs.len(), affine::verify_pairs(rows)?);
    let votes: Vec<u32> = pairs.iter().map(|pair| pair.votes).collect();
    let mut mask = match plate::ransac_fit(rows, &votes, 5.0, 1000)? {
        Run::Fitted(mask) => mask,
        Run::Untested(_) => return Err("too few rows to test".into()),
    };

    // the plate of those rows, without the ones that are far off
    let snr: Vec<f64> = pairs.iter().map(|pair| pair.snr).collect();
    let weights: Vec<f64> = snr.iter().map(|snr| snr * snr).collect();
    let cd = plate::fit_cd_weighted(rows, &mask, &weights)?;
    let (Clip::Done(cd) | Clip::Stopped(cd)) =
        plate::sigma_clip_loop_weighted(rows, &mut mask, cd, &weights)?;
    println!("{} rows on", mask.iter().filter(|&&on| on).count());

    // what the plate leaves, as a polynomial; and the record of it all
    let wcs = about_reference_pixel(cd);
    let fit = sip::fit_sip(rows, &snr, wcs, 3)?;
    println!("rms {:.3} pixels, {:.3} before\n", fit.rms, fit.linear_rms);
    print!("{}", record::write_record(&fit, wcs)?);
    Ok(())
}

/// Stars here and there on a picture of 4,096 pixels.
fn image() -> (Vec<f64>, Vec<f64>) {
    let mut word = 1u64;
    let mut next = || {
        word = word.wrapping_mul(6_364_136_223_846_793_005).wrapping_add(1_442_695_040_888_963_407);
        (word >> 40) as f64 / 16_777_216.0 * 4096.0
    };
    (0..STARS).map(|_| (next(), next())).unzip()
}

/// Where a pixel lies on the tangent plane, in degrees.
fn sky(x: f64, y: f64) -> (f64, f64) {
    let (u, v) = (x - 2048.0, y - 2048.0);
    let (u, v) = (u - 2e-6 * u * u, v + 1e-6 * u * v);
    (3e-4 * u - 1e-4 * v, 1e-4 * u + 3e-4 * v)
}

/// The pixel that the plate takes to the middle of the plane, with the plate's factors.
fn about_reference_pixel(cd: Cd) -> Wcs {
    let Cd { cd1_1, cd1_2, xi0, cd2_1, cd2_2, eta0 } = cd;
    let det = cd1_1 * cd2_2 - cd1_2 * cd2_1;
    let crpix1 = (cd1_2 * eta0 - cd2_2 * xi0) / det;
    let crpix2 = (cd2_1 * xi0 - cd1_1 * eta0) / det;
    Wcs { crpix1, crpix2, cd1_1, cd1_2, cd2_1, cd2_2 }
}
