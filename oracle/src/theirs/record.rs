//! The record, written and read from the scope's example and words alone: the Rust has none.

use std::str;

use super::{COUNT, FORM, LENGTHS, ORDER, ROOM, VALUE};
use super::{is_finite, is_position, number, put, refuse};
use crate::case::{bits, parse_float};
use crate::ours::record::{Lent, Solution};

const MOST_ROWS: u64 = 100;
const LEAST_COEFFICIENT: f64 = 1e-20;

/// The format that is written. The only other one that is read is 1.
const WRITTEN: u32 = 2;

const PIXEL: [&str; 2] = ["crpix1", "crpix2"];
const CD: [&str; 4] = ["cd1_1", "cd1_2", "cd2_1", "cd2_2"];
const SUMS: [&str; 3] = ["linear_rms", "rms", "wrms"];

pub fn write_record(of: Solution, text: &mut [u8], written: &mut u64) -> u32 {
    number(|| {
        refuse(COUNT, of.rows_used > MOST_ROWS)?;
        refuse(LENGTHS, of.wcs.len() != 6 || of.sums.len() != 3)?;
        let fitted = (2..=5).contains(&of.order);
        let terms = terms(of.order);
        let uneven = of.a.len() != terms.len() || of.b.len() != terms.len();
        refuse(LENGTHS, fitted && uneven)?;
        let (pixel, cd) = of.wcs.split_at(2);
        let taken = pixel.iter().all(|&x| is_position(x)) && cd.iter().all(|&x| is_finite(x));
        refuse(VALUE, !taken)?;
        refuse(ORDER, !fitted)?;
        let record = text_in(WRITTEN, of);
        refuse(ROOM, text.len() < record.len())?;
        put(text, record.as_bytes());
        *written = record.len() as u64;
        Ok(())
    })
}

/// The powers of u and v, as `sip_monomial_terms` lists them.
fn terms(order: u32) -> Vec<(u32, u32)> {
    let degrees = 2..=order.min(5);
    degrees.flat_map(|total| (0..=total).map(move |q| (total - q, q))).collect()
}

/// NaN is not.
fn is_kept(coefficient: f64) -> bool {
    coefficient.abs() > LEAST_COEFFICIENT
}

/// A solved number as a line of the format holds it, and such a line's number as it was solved:
/// format 1 has it as it stands, format 2 with its sign bit turned.
fn turned_in(format: u32, c: f64) -> f64 {
    if format == 1 { c } else { f64::from_bits(c.to_bits() ^ 1 << 63) }
}

/// The record of a solution that can be written, in either format.
pub fn text_in(format: u32, of: Solution) -> String {
    let float = |name: &str, x: f64| format!("{name}={:016x}\n", bits(x));
    let axis = |letter: char, list: &[f64]| -> String {
        let terms = terms(of.order).into_iter();
        let lines = terms.zip(list).filter(|&(_, &c)| is_kept(c));
        lines
            .map(|((p, q), &c)| float(&format!("{letter}_{p}_{q}"), turned_in(format, c)))
            .collect()
    };
    let mut text = format!("format={format}\nrows={}\n", of.rows_used);
    text.extend(PIXEL.iter().chain(&CD).zip(of.wcs).map(|(name, &x)| float(name, x)));
    text += &format!("order={}\n", of.order);
    text += &axis('a', of.a);
    text += &axis('b', of.b);
    text.extend(SUMS.iter().zip(of.sums).map(|(name, &x)| float(name, x)));
    text
}

// ---- read back

pub fn read_record(text: &[u8], lent: &mut Lent) -> u32 {
    number(|| {
        let read = Read::parse(text).map_err(|line| {
            lent.line = line;
            FORM
        })?;
        let short = |lent: &[f64], values: &[f64]| lent.len() < values.len();
        refuse(ROOM, short(lent.wcs, &read.wcs) || short(lent.sums, &read.sums))?;
        refuse(ROOM, short(lent.a, &read.a) || short(lent.b, &read.b))?;
        lent.format = read.format;
        lent.rows_used = read.rows_used;
        lent.order = read.order;
        put(lent.wcs, &read.wcs);
        put(lent.a, &read.a);
        put(lent.b, &read.b);
        put(lent.sums, &read.sums);
        Ok(())
    })
}

/// What was read, or the number of the first wrong line.
type Parsed<T> = Result<T, u64>;

/// All that a record says.
struct Read {
    format: u32,
    rows_used: u64,
    wcs: Vec<f64>,
    order: u32,
    a: Vec<f64>,
    b: Vec<f64>,
    sums: Vec<f64>,
}

impl Read {
    /// Every line that is taken can be followed by those of some record, so that the first that is
    /// not taken is the first wrong one.
    fn parse(text: &[u8]) -> Parsed<Read> {
        let mut lines = Lines::of(text);
        let format = lines.decimal("format", |n| n == 1 || n == 2)? as u32;
        let rows_used = lines.decimal("rows", |n| n <= MOST_ROWS)?;
        let mut wcs = lines.floats(&PIXEL, is_position)?;
        wcs.extend(lines.floats(&CD, is_finite)?);
        let order = lines.decimal("order", |n| (2..=5).contains(&n))? as u32;
        let a = lines.axis('a', order, format)?;
        let b = lines.axis('b', order, format)?;
        let sums = lines.floats(&SUMS, |_| true)?;
        lines.end()?;
        Ok(Read { format, rows_used, wcs, order, a, b, sums })
    }
}

/// The lines of a text, which are taken one by one.
struct Lines<'a> {
    /// Those that end, each without its newline.
    whole: Vec<&'a [u8]>,
    /// What stands after the last newline.
    rest: &'a [u8],
    taken: usize,
}

impl<'a> Lines<'a> {
    fn of(text: &'a [u8]) -> Lines<'a> {
        let mut whole: Vec<&[u8]> = text.split(|&byte| byte == b'\n').collect();
        let rest = whole.pop().unwrap_or_default();
        Lines { whole, rest, taken: 0 }
    }

    /// What the next line says, if it is there, ends and has this name.
    fn next(&self, name: &str) -> Option<&'a [u8]> {
        let line = self.whole.get(self.taken)?;
        line.strip_prefix(name.as_bytes())?.strip_prefix(b"=")
    }

    /// Takes the next line, which is to have this name and a value that can be read.
    fn take<T>(&mut self, name: &str, value: impl Fn(&[u8]) -> Option<T>) -> Parsed<T> {
        let number = self.taken as u64 + 1;
        let read = self.next(name).and_then(value).ok_or(number)?;
        self.taken += 1;
        Ok(read)
    }

    fn decimal(&mut self, name: &str, stands: impl Fn(u64) -> bool) -> Parsed<u64> {
        self.take(name, |digits| decimal(digits).filter(|&n| stands(n)))
    }

    fn float(&mut self, name: &str, stands: impl Fn(f64) -> bool) -> Parsed<f64> {
        self.take(name, |digits| float(digits).filter(|&x| stands(x)))
    }

    fn floats(&mut self, names: &[&str], stands: fn(f64) -> bool) -> Parsed<Vec<f64>> {
        names.iter().map(|name| self.float(name, stands)).collect()
    }

    /// The solved number of each term: a coefficient without a line is 0.0 in every format.
    fn axis(&mut self, letter: char, order: u32, format: u32) -> Parsed<Vec<f64>> {
        let coefficient = |(p, q)| {
            let name = format!("{letter}_{p}_{q}");
            if self.next(&name).is_none() {
                return Ok(0.0);
            }
            self.float(&name, is_kept).map(|held| turned_in(format, held))
        };
        terms(order).into_iter().map(coefficient).collect()
    }

    fn end(&self) -> Parsed<()> {
        let over = self.taken == self.whole.len() && self.rest.is_empty();
        if over { Ok(()) } else { Err(self.taken as u64 + 1) }
    }
}

/// A number without leading zeros and without a sign.
fn decimal(digits: &[u8]) -> Option<u64> {
    let padded = digits.len() > 1 && digits[0] == b'0';
    if padded || !digits.iter().all(u8::is_ascii_digit) {
        return None;
    }
    str::from_utf8(digits).ok()?.parse().ok()
}

/// A float of 16 lowercase digits; of the NaNs only the one that is written.
fn float(digits: &[u8]) -> Option<f64> {
    let x = parse_float(str::from_utf8(digits).ok()?).ok()?;
    (x.to_bits() == bits(x)).then_some(x)
}

#[cfg(test)]
mod tests {
    use super::*;

    /// The scope's record, whose a_2_0 was solved as 0.5.
    const TEXT: &str = "format=2\nrows=6\ncrpix1=0000000000000000\ncrpix2=0000000000000000\n\
                        cd1_1=3ff0000000000000\ncd1_2=0000000000000000\ncd2_1=0000000000000000\n\
                        cd2_2=3ff0000000000000\norder=2\na_2_0=bfe0000000000000\n\
                        linear_rms=3fe0000000000000\nrms=0000000000000000\nwrms=0000000000000000\n";

    const SOLVED: Solution = Solution {
        rows_used: 6,
        wcs: &[0.0, 0.0, 1.0, 0.0, 0.0, 1.0],
        order: 2,
        a: &[0.5, 0.0, 0.0],
        b: &[0.0; 3],
        sums: &[0.5, 0.0, 0.0],
    };

    /// The same record as it was before.
    fn in_format_1() -> String {
        TEXT.replace("format=2", "format=1").replace("a_2_0=b", "a_2_0=3")
    }

    fn both() -> [String; 2] {
        [in_format_1(), TEXT.to_string()]
    }

    fn wrong_line(text: &str) -> Option<u64> {
        Read::parse(text.as_bytes()).err()
    }

    fn read(text: &str) -> Read {
        Read::parse(text.as_bytes()).unwrap_or_else(|line| panic!("line {line}"))
    }

    /// Their bits: -0.0 is not 0.0.
    fn all_bits(list: &[f64]) -> Vec<u64> {
        list.iter().map(|x| x.to_bits()).collect()
    }

    #[test]
    fn the_record_of_the_scope() {
        for (format, text) in (1..).zip(both()) {
            let read = read(&text);
            assert_eq!((read.format, read.rows_used, read.order), (format, 6, 2));
            let shown = [read.wcs, read.a, read.b, read.sums].map(|list| all_bits(&list));
            let solved = [SOLVED.wcs, SOLVED.a, SOLVED.b, SOLVED.sums].map(all_bits);
            assert_eq!(shown, solved);
            assert_eq!(text_in(format, SOLVED), text);
        }
        let (mut text, mut written) = ([0; 300], 0);
        assert_eq!(write_record(SOLVED, &mut text, &mut written), 0);
        assert_eq!(&text[..written as usize], TEXT.as_bytes());
    }

    #[test]
    fn only_the_sign_bit_of_a_coefficient_is_turned() {
        let least = LEAST_COEFFICIENT.next_up();
        let solved = [f64::INFINITY, f64::NEG_INFINITY, least, -least, f64::MAX, -1.5, 2.5];
        let dropped = [0.0, -0.0, LEAST_COEFFICIENT, -LEAST_COEFFICIENT, f64::NAN, 5e-324, -1e-21];
        let of = Solution { order: 3, a: &solved, b: &dropped, sums: &[-0.5, -0.0, 1.0], ..SOLVED };
        let [old, new] = [1, 2].map(|format| text_in(format, of));
        let value = |line: &str| u64::from_str_radix(line.split_once('=')?.1, 16).ok();
        for (old, new) in old.lines().zip(new.lines()).skip(2) {
            let turned = if old.starts_with("a_") { 1 << 63 } else { 0 };
            assert_eq!(value(new), value(old).map(|bits| bits ^ turned), "{old} {new}");
        }
        assert_eq!(old.lines().filter(|line| line.starts_with("a_")).count(), 7);
        assert!(!old.contains("\nb_"));
        for (format, text) in [(1, old), (2, new)] {
            let read = read(&text);
            assert_eq!((read.format, all_bits(&read.a)), (format, all_bits(&solved)));
            assert_eq!(all_bits(&read.b), [0; 7]);
        }
    }

    #[test]
    fn other_formats() {
        let other = "0 3 4 9 12 21 11 22 01 02 +1 -1 +2 -2 1.0 2.0 257 258 x";
        for format in other.split(' ').chain(["", " 2", "2 "]) {
            let first = format!("format={format}\n");
            assert_eq!(wrong_line(&TEXT.replace("format=2\n", &first)), Some(1), "{format}");
        }
    }

    #[test]
    fn a_text_that_ends_early_or_late() {
        for text in both() {
            for cut in 0..text.len() {
                let lines = text[..cut].matches('\n').count() as u64;
                assert_eq!(wrong_line(&text[..cut]), Some(lines + 1), "cut at {cut}");
            }
            for more in ["\n", "x", "wrms=0000000000000000\n", &text] {
                assert_eq!(wrong_line(&format!("{text}{more}")), Some(14));
            }
        }
    }

    #[test]
    fn the_first_line_that_cannot_stand_there() {
        let zeros = "000000000000\n";
        for (text, half) in both().into_iter().zip(["3fe0", "bfe0"]) {
            let [a20, a11, b20] =
                ["a_2_0", "a_1_1", "b_2_0"].map(|name| format!("{name}={half}{zeros}"));
            let axes = |lines: [&str; 2]| text.replace(&a20, &lines.concat());
            assert_eq!(wrong_line(&axes([&a20, &a11])), None);
            assert_eq!(wrong_line(&axes([&a11, &a20])), Some(11));
            assert_eq!(wrong_line(&axes([&a20, &a20])), Some(11));
            assert_eq!(wrong_line(&axes([&b20, &a20])), Some(11));
            assert_eq!(wrong_line(&text.replace("a_2_0", "a_3_0")), Some(10));
            for dropped in ["0", "8"] {
                let least = format!("a_2_0={dropped}fe0");
                assert_eq!(wrong_line(&text.replace(&format!("a_2_0={half}"), &least)), Some(10));
            }
            assert_eq!(wrong_line(&text.replace("\nrms=0", "\nrms=F")), Some(12));
            assert_eq!(wrong_line(&text.replace("rows=6", "rows=06")), Some(2));
        }
    }

    #[test]
    fn numbers_and_floats_in_their_one_form() {
        let numbers = ["0", "100", "18446744073709551615"];
        assert!(numbers.iter().all(|digits| decimal(digits.as_bytes()).is_some()));
        let others = ["", "00", "06", "+6", "-6", " 6", "6\r", "18446744073709551616"];
        assert!(others.iter().all(|digits| decimal(digits.as_bytes()).is_none()));
        let bits = |digits: &str| float(digits.as_bytes()).map(f64::to_bits);
        assert_eq!(bits("7ff8000000000000"), Some(0x7ff8_0000_0000_0000));
        assert_eq!(bits("fff0000000000000"), Some(0xfff0_0000_0000_0000));
        for other in ["fff8000000000000", "7ff8000000000001", "3FF0000000000000", "0", ""] {
            assert_eq!(bits(other), None);
        }
    }
}
