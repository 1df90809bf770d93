//! A whole frame, from two lists of stars to the record of a plate: through the Rust and through
//! Moorspindle. Each side goes its own way, and after every step the two are compared.

use std::fs;

use crate::Outcome;
use crate::case::bits;
use file::Frame;
use side::{OURS, Side, THEIRS};
use walk::{ORDER, Solved, Step, Walk};

mod file;
mod side;
mod walk;

const FRAME: &str = concat!(env!("CARGO_MANIFEST_DIR"), "/../examples/frame.txt");
/// What the C program prints of that frame; its record comes last.
const PRINTED: &str = concat!(env!("CARGO_MANIFEST_DIR"), "/../examples/frame.out");

/// The frame of examples/, and the record that the C program is known to print.
pub fn example() -> Outcome<bool> {
    let (same, record) = compare(&read(FRAME)?)?;
    let printed = read(PRINTED)?;
    let ends = record.is_some_and(|record| !record.is_empty() && printed.ends_with(&record));
    println!("{:<24} {:<36} {}", "examples/frame.out", "ends with the record", verdict(ends));
    Ok(same && ends)
}

/// Another frame, of the same form.
pub fn of(path: &str) -> Outcome<bool> {
    Ok(compare(&read(path)?)?.0)
}

fn read(path: &str) -> Outcome<String> {
    fs::read_to_string(path).map_err(|problem| format!("{path}: {problem}"))
}

/// Prints a line for each step; whether all were equal, and the Rust's record.
fn compare(text: &str) -> Outcome<(bool, Option<String>)> {
    let frame = Frame::parse(text)?;
    let (theirs, solved) = walked(&THEIRS, &frame);
    let (ours, _) = walked(&OURS, &frame);
    let mut same = theirs.len() == ours.len();
    for (theirs, ours) in theirs.iter().zip(&ours) {
        let equal = theirs.answer == ours.answer;
        let time = ours.time.as_secs_f64() * 1e6;
        println!("{:<24} {:<36} {} {time:>9.1} us", ours.name, ours.told, verdict(equal));
        if !equal {
            println!("{:<24} {}", "    the Rust", theirs.told);
        }
        same &= equal;
    }
    if let Some(solved) = &solved {
        println!("{:<24} {}", "right pairs", right_pairs(&frame, solved));
        println!("{:<24} {}", "the untouched SIP fit", distance_of_untouched(solved));
    }
    Ok((same, solved.map(|solved| solved.record)))
}

fn verdict(equal: bool) -> &'static str {
    if equal { "equal    " } else { "DIFFERENT" }
}

fn walked(side: &Side, frame: &Frame) -> (Vec<Step>, Option<Solved>) {
    let mut walk = Walk::new(side, frame);
    let solved = walk.go().ok();
    (walk.steps, solved)
}

/// How many of the rows kept are a detection and its own star, as the file's remarks have it.
fn right_pairs(frame: &Frame, solved: &Solved) -> String {
    let [px, py, xi, eta] = solved.table.rows();
    let right = (0..px.len()).filter(|&row| {
        let seen = frame.detections.iter().find(|star| (star.x, star.y) == (px[row], py[row]));
        let star = frame.stars.iter().find(|star| (star.xi, star.eta) == (xi[row], eta[row]));
        seen.map(|seen| seen.of) == star.map(|star| star.id)
    });
    format!("{} of {} rows kept", right.count(), px.len())
}

/// How far the Rust's own SIP fit, with libm's powers and a hash map's order, is away.
fn distance_of_untouched(solved: &Solved) -> String {
    let (table, sip) = (&solved.table, &solved.sip);
    let mut lent = walk::room_for_sip();
    let number = side::fit_sip_untouched(table.rows(), &table.snr, &solved.wcs, ORDER, &mut lent);
    if number != 0 {
        return format!("refused: number {number}");
    }
    let pairs = || lent.a.iter().chain(&lent.b).zip(sip.a.iter().chain(&sip.b));
    let equal = pairs().filter(|(x, y)| bits(**x) == bits(**y)).count();
    let apart = |(x, y): (&f64, &f64)| (x - y).abs() / x.abs().max(y.abs()).max(1e-300);
    let greatest = pairs().map(apart).fold(0.0, f64::max);
    let rms = (lent.sums[1] - sip.sums[1]).abs();
    format!(
        "{} rows, {equal} of {} coefficients equal, the others at most {greatest:.1e} of their size \
         apart, the rms {rms:.1e} pixels",
        lent.rows_used,
        pairs().count()
    )
}

#[cfg(test)]
mod tests {
    use super::*;

    fn frame() -> Frame {
        Frame::parse(&read(FRAME).unwrap()).unwrap()
    }

    fn answers_equal(one: &[Step], other: &[Step]) -> Vec<bool> {
        one.iter().zip(other).map(|(one, other)| one.answer == other.answer).collect()
    }

    #[test]
    fn every_row_that_is_kept_is_a_detection_of_its_star() {
        let frame = frame();
        let solved = walked(&THEIRS, &frame).1.unwrap();
        let rows = solved.table.snr.len();
        assert!(rows >= 50);
        assert_eq!(right_pairs(&frame, &solved), format!("{rows} of {rows} rows kept"));
    }

    #[test]
    fn a_bit_of_a_detection_shows() {
        let (frame, mut other) = (frame(), frame());
        let x = &mut other.detections[0].x;
        *x = x.next_up();
        let (steps, _) = walked(&THEIRS, &frame);
        let equal = answers_equal(&steps, &walked(&OURS, &other).0);
        assert!(equal[0] && equal[1], "the catalogue's quads and index do not read detections");
        assert!(equal[2..].contains(&false));
    }

    #[test]
    fn a_fit_of_other_powers_shows_from_its_step_on() {
        let frame = frame();
        let other = Side { fit_sip: side::fit_sip_untouched, ..OURS };
        let (steps, _) = walked(&OURS, &frame);
        let equal = answers_equal(&steps, &walked(&other, &frame).0);
        let fit = steps.iter().position(|step| step.name == "SIP fit").unwrap();
        assert!(!equal[..fit].contains(&false) && !equal[fit..].contains(&true));
    }

    #[test]
    fn a_refusal_ends_the_way() {
        let mut frame = frame();
        frame.detections[3].snr = -1.0;
        let (theirs, ours) = (walked(&THEIRS, &frame).0, walked(&OURS, &frame).0);
        assert_eq!(ours.last().unwrap().told, "refused: number 3");
        assert_eq!((theirs.len(), ours.len()), (5, 5));
        assert_eq!(answers_equal(&theirs, &ours), [true; 5]);
    }
}
