//! The SIP fit, against the Rust: with the powers and the order of the sum changed, and untouched.

use celestial_solver::fit_wcs;

use super::Row;
use crate::calls::sip::{Field, camera};
use crate::ours;
use crate::ours::sip::Lent;
use crate::random::Random;
use crate::theirs::sip::terms;

const LISTS: usize = 8;

#[derive(Clone)]
struct Image {
    field: Field,
    rows: Vec<celestial_solver::Row>,
}

pub fn rows(random: &mut Random) -> Vec<Row> {
    let mut rows = Vec::new();
    let names = ["SIP fit, order 2", "SIP fit, order 3", "SIP fit, order 4", "SIP fit, order 5"];
    for (name, order) in names.into_iter().zip(2..) {
        let images: Vec<Image> = (0..LISTS).map(|_| image(random)).collect();
        let ours = Row::over(name, "Moorspindle", &images, move |image| {
            let room = terms(order);
            let mut lent =
                Lent { a: vec![0.0; room], b: vec![0.0; room], rows_used: 0, sums: vec![0.0; 3] };
            let field = &image.field;
            ours::sip::fit_sip(field.lists(), &field.snr, &field.wcs, order, &mut lent);
            lent
        });
        rows.push(ours.of("fit_sip"));
        rows.push(Row::over(name, "the Rust, its powers products", &images, move |image| {
            fit_wcs::fit_sip_in_order(&image.rows, &image.field.snr, wcs(image), order)
        }));
        rows.push(Row::over(name, "the Rust", &images, move |image| {
            fit_wcs::fit_sip(&image.rows, &image.field.snr, wcs(image), order)
        }));
    }
    rows
}

fn wcs(image: &Image) -> [f64; 6] {
    image.field.wcs.as_slice().try_into().expect("six numbers")
}

/// A hundred stars, five of them off.
fn image(random: &mut Random) -> Image {
    let field = camera(random, 100, 0.2, 5, 2.0);
    let [px, py, xi, eta] = field.lists();
    let rows = (0..px.len()).map(|i| (px[i], py[i], xi[i], eta[i])).collect();
    Image { field, rows }
}
