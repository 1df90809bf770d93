//! A case and its answer: fields, written on one line and separated by one space.
//!
//! A float is the 16 lowercase hex digits of its bits, every NaN 7ff8000000000000. A number is
//! decimal, and an id the 16 digits of its two's complement, as is a word of a table. A list has
//! commas between its members, and an empty one is `-`. The line of a case starts with its call's
//! name; the line of an answer does not.

use std::fmt::{self, Display};

use crate::random::Random;

/// What a field holds: the digits alone do not tell a float from a number.
#[derive(Clone, Copy)]
pub enum Kind {
    Float,
    Number,
    Floats,
    Numbers,
    Ids,
}

#[derive(Clone, Debug)]
enum Field {
    Float(f64),
    Number(i128),
    Floats(Vec<f64>),
    Numbers(Vec<i128>),
    Ids(Vec<i64>),
}

/// The fields of a case or of an answer, put together one after the other.
#[derive(Clone, Debug, Default, PartialEq)]
pub struct Fields(Vec<Field>);

pub type Case = Fields;
pub type Answer = Fields;

/// The bits of a float; one pattern stands for all NaNs.
pub fn bits(x: f64) -> u64 {
    if x.is_nan() { 0x7ff8_0000_0000_0000 } else { x.to_bits() }
}

impl Fields {
    pub fn new() -> Fields {
        Fields::default()
    }

    fn with(mut self, field: Field) -> Fields {
        self.0.push(field);
        self
    }

    pub fn float(self, x: f64) -> Fields {
        self.with(Field::Float(x))
    }

    pub fn number(self, n: impl Into<i128>) -> Fields {
        self.with(Field::Number(n.into()))
    }

    pub fn floats(self, list: &[f64]) -> Fields {
        self.with(Field::Floats(list.to_vec()))
    }

    pub fn numbers<T: Copy + Into<i128>>(self, list: &[T]) -> Fields {
        self.with(Field::Numbers(list.iter().map(|&n| n.into()).collect()))
    }

    pub fn ids(self, list: &[i64]) -> Fields {
        self.with(Field::Ids(list.to_vec()))
    }

    /// Words, in the form of ids.
    pub fn words(self, list: &[u64]) -> Fields {
        self.with(Field::Ids(list.iter().map(|&word| word as i64).collect()))
    }

    pub fn float_at(&self, place: usize) -> f64 {
        match &self.0[place] {
            Field::Float(x) => *x,
            other => panic!("field {place} is no float: {other:?}"),
        }
    }

    pub fn number_at<T: TryFrom<i128>>(&self, place: usize) -> T {
        match &self.0[place] {
            Field::Number(n) => narrow(*n),
            other => panic!("field {place} is no number: {other:?}"),
        }
    }

    pub fn floats_at(&self, place: usize) -> &[f64] {
        match &self.0[place] {
            Field::Floats(list) => list,
            other => panic!("field {place} is no list of floats: {other:?}"),
        }
    }

    pub fn numbers_at<T: TryFrom<i128>>(&self, place: usize) -> Vec<T> {
        match &self.0[place] {
            Field::Numbers(list) => list.iter().map(|&n| narrow(n)).collect(),
            other => panic!("field {place} is no list of numbers: {other:?}"),
        }
    }

    pub fn ids_at(&self, place: usize) -> &[i64] {
        match &self.0[place] {
            Field::Ids(list) => list,
            other => panic!("field {place} is no list of ids: {other:?}"),
        }
    }

    pub fn words_at(&self, place: usize) -> Vec<u64> {
        self.ids_at(place).iter().map(|&id| id as u64).collect()
    }

    /// A damaged copy: in one of its floats or lists of floats a bit is turned, a NaN or an infinity
    /// put in, or the list has a member more or less. A case without floats stays as it is.
    pub fn damaged(mut self, random: &mut Random) -> Fields {
        let floats = |field: &Field| match field {
            Field::Float(_) => true,
            Field::Floats(list) => !list.is_empty(),
            _ => false,
        };
        let places: Vec<usize> = (0..self.0.len()).filter(|&at| floats(&self.0[at])).collect();
        if places.is_empty() {
            return self;
        }
        match &mut self.0[random.one_of(&places)] {
            Field::Float(x) => *x = damaged(*x, random),
            Field::Floats(list) => {
                let at = random.below(list.len() as u64) as usize;
                match random.below(6) {
                    0 => drop(list.remove(at)),
                    1 => list.insert(at, list[at]),
                    _ => list[at] = damaged(list[at], random),
                }
            }
            _ => unreachable!("a field of floats"),
        }
        self
    }

    /// Reads the fields of a line, which must be of these kinds.
    pub fn parse(words: &[&str], kinds: &[Kind]) -> Result<Fields, String> {
        if words.len() != kinds.len() {
            return Err(format!("{} fields, not {}", words.len(), kinds.len()));
        }
        let fields = words.iter().zip(kinds).map(|(word, kind)| {
            Ok(match kind {
                Kind::Float => Field::Float(parse_float(word)?),
                Kind::Number => Field::Number(parse_number(word)?),
                Kind::Floats => Field::Floats(parse_list(word, parse_float)?),
                Kind::Numbers => Field::Numbers(parse_list(word, parse_number)?),
                Kind::Ids => Field::Ids(parse_list(word, parse_id)?),
            })
        });
        fields.collect::<Result<_, String>>().map(Fields)
    }
}

fn damaged(x: f64, random: &mut Random) -> f64 {
    match random.below(5) {
        0 => f64::NAN,
        1 => random.signed(f64::INFINITY),
        _ => f64::from_bits(x.to_bits() ^ 1 << random.below(64)),
    }
}

fn narrow<T: TryFrom<i128>>(n: i128) -> T {
    T::try_from(n).unwrap_or_else(|_| panic!("{n} is outside the call's type"))
}

fn parse_bits(word: &str) -> Result<u64, String> {
    let digits = |c: u8| c.is_ascii_digit() || (b'a'..=b'f').contains(&c);
    if word.len() != 16 || !word.bytes().all(digits) {
        return Err(format!("{word} is not 16 hex digits"));
    }
    u64::from_str_radix(word, 16).map_err(|e| e.to_string())
}

pub fn parse_float(word: &str) -> Result<f64, String> {
    parse_bits(word).map(f64::from_bits)
}

fn parse_id(word: &str) -> Result<i64, String> {
    parse_bits(word).map(|bits| bits as i64)
}

fn parse_number(word: &str) -> Result<i128, String> {
    word.parse().map_err(|_| format!("{word} is no number"))
}

fn parse_list<T>(word: &str, member: fn(&str) -> Result<T, String>) -> Result<Vec<T>, String> {
    if word == "-" {
        return Ok(Vec::new());
    }
    word.split(',').map(member).collect()
}

impl PartialEq for Field {
    /// Floats are equal when their bits are: -0.0 is not 0.0, and every NaN is the same.
    fn eq(&self, other: &Field) -> bool {
        match (self, other) {
            (Field::Float(x), Field::Float(y)) => bits(*x) == bits(*y),
            (Field::Number(m), Field::Number(n)) => m == n,
            (Field::Floats(x), Field::Floats(y)) => {
                x.iter().copied().map(bits).eq(y.iter().copied().map(bits))
            }
            (Field::Numbers(m), Field::Numbers(n)) => m == n,
            (Field::Ids(m), Field::Ids(n)) => m == n,
            _ => false,
        }
    }
}

impl Display for Fields {
    fn fmt(&self, f: &mut fmt::Formatter) -> fmt::Result {
        for (place, field) in self.0.iter().enumerate() {
            if place > 0 {
                f.write_str(" ")?;
            }
            field.fmt(f)?;
        }
        Ok(())
    }
}

impl Display for Field {
    fn fmt(&self, f: &mut fmt::Formatter) -> fmt::Result {
        match self {
            Field::Float(x) => write!(f, "{:016x}", bits(*x)),
            Field::Number(n) => write!(f, "{n}"),
            Field::Floats(list) => write_list(f, list, |f, x| write!(f, "{:016x}", bits(*x))),
            Field::Numbers(list) => write_list(f, list, |f, n| write!(f, "{n}")),
            Field::Ids(list) => write_list(f, list, |f, id| write!(f, "{id:016x}")),
        }
    }
}

fn write_list<T>(
    f: &mut fmt::Formatter,
    list: &[T],
    member: fn(&mut fmt::Formatter, &T) -> fmt::Result,
) -> fmt::Result {
    for (place, value) in list.iter().enumerate() {
        if place > 0 {
            f.write_str(",")?;
        }
        member(f, value)?;
    }
    if list.is_empty() {
        f.write_str("-")?;
    }
    Ok(())
}

#[cfg(test)]
mod tests {
    use super::*;

    #[test]
    fn a_line_reads_back() {
        let line = "bff0000000000000 -7 8000000000000000,7ff8000000000000 - 0,18446744073709551615 \
                    fffffffffffffff9";
        let words: Vec<&str> = line.split(' ').collect();
        let kinds =
            [Kind::Float, Kind::Number, Kind::Floats, Kind::Floats, Kind::Numbers, Kind::Ids];
        let read = Fields::parse(&words, &kinds).unwrap();
        assert_eq!(read.to_string(), line);
        assert_eq!(read.numbers_at::<u64>(4), [0, u64::MAX]);
        assert_eq!(read.ids_at(5), [-7]);
    }

    #[test]
    fn equal_is_bit_for_bit_but_for_nan() {
        let float = |bits| Fields::new().float(f64::from_bits(bits));
        assert_eq!(float(0x7ff0_0000_0000_0001), float(0xffff_ffff_ffff_ffff));
        assert_ne!(float(0), float(1 << 63));
        assert_ne!(float(0), Fields::new().number(0));
    }
}
