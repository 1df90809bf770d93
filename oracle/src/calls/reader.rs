//! The record read back: whole records of both formats into room of every kind, and texts that come
//! from a record by damage of every kind.

use std::hint::black_box;

use super::Call;
use super::record::{Given, WORD, random_solution, real_fit, terms};
use crate::case::{Answer, Case, Kind};
use crate::ours::record::Lent;
use crate::random::Random;
use crate::{edges, ours, theirs};

const FLOAT: f64 = f64::from_bits(WORD);

const FURTHEST: f64 = 1_048_576.0;

// ---- read_record

pub const READ_RECORD: Call = Call {
    name: "read_record",
    takes: &[
        Kind::Numbers, // the bytes of the text
        Kind::Number,  // the lengths of the WCS, a, b and the sums
        Kind::Number,
        Kind::Number,
        Kind::Number,
    ],
    edges: edge_cases,
    random: |random| {
        let of = random_record(random);
        random_case(random, &of)
    },
    count: 400_000,
    theirs: |case| read(case, theirs::record::read_record),
    ours: |case| read(case, ours::record::read_record),
};

/// The records of fields of a camera that were fitted.
pub const REAL_READS: Call = Call {
    name: "read_record: of real fits",
    edges: |_| Vec::new(),
    random: |random| {
        let of = real_fit(random);
        random_case(random, &of)
    },
    count: 2_000,
    ..READ_RECORD
};

/// The lengths of the WCS, a, b and the sums.
type Room = [usize; 4];

fn reading(text: &[u8], room: Room) -> Case {
    room.into_iter().fold(Case::new().numbers(text), |case, length| case.number(length as u64))
}

/// Just what an order takes.
fn room(order: u32) -> Room {
    let n = terms(order);
    [6, n, n, 3]
}

type Read = fn(&[u8], &mut Lent) -> u32;

fn read(case: &Case, by: Read) -> Answer {
    let text = case.numbers_at::<u8>(0);
    let room = [1, 2, 3, 4].map(|place| case.number_at::<usize>(place));
    let answer = read_onto(Answer::new(), &text, room, by);
    assert!(reading(black_box(&text), room) == *case, "the text was changed");
    answer
}

/// Puts what a text is read as behind an answer.
fn read_onto(answer: Answer, text: &[u8], room: Room, by: Read) -> Answer {
    let [mut wcs, mut a, mut b, mut sums] = room.map(|length| vec![FLOAT; length]);
    let mut lent = Lent {
        format: WORD as u32,
        rows_used: WORD,
        wcs: &mut wcs,
        order: WORD as u32,
        a: &mut a,
        b: &mut b,
        sums: &mut sums,
        line: WORD,
    };
    let number = by(text, &mut lent);
    let answer = answer.number(number).number(lent.format).number(lent.rows_used);
    let answer = in_bits(in_bits(answer, lent.wcs).number(lent.order), lent.a);
    in_bits(in_bits(answer, lent.b), lent.sums).number(lent.line)
}

/// The bits of floats: of the NaNs only the one that is written may be read.
fn in_bits(answer: Answer, list: &[f64]) -> Answer {
    answer.words(&list.iter().map(|x| x.to_bits()).collect::<Vec<_>>())
}

// ---- written back

/// What is read is written back, and that is read again. Format 2 has the same bytes again, and
/// format 1 becomes the record of format 2 that shows the same solution.
pub const WRITTEN_BACK: Call = Call {
    name: "read_record: written back",
    count: 100_000,
    theirs: |case| {
        let text = case.numbers_at::<u8>(0);
        back(&text, theirs::record::read_record, |_| due_back(&text))
    },
    ours: |case| {
        let text = case.numbers_at::<u8>(0);
        let written = |of: &Given| of.text_by(ours::record::write_record);
        back(&text, ours::record::read_record, written)
    },
    ..READ_RECORD
};

/// Room for every record.
const AMPLE: Room = [6, 18, 18, 3];

/// What a text is read as, and where it is a record, the text that it is written back to and what
/// that is read as.
fn back(text: &[u8], by: Read, written: impl Fn(&Given) -> Vec<u8>) -> Answer {
    let answer = read_onto(Answer::new(), text, AMPLE, by);
    if answer.number_at::<u32>(0) != 0 {
        return answer;
    }
    let text = written(&shown(&answer));
    read_onto(answer.numbers(&text), &text, AMPLE, by)
}

/// The solution that was read.
fn shown(answer: &Answer) -> Given {
    let floats = |place: usize, length: usize| -> Vec<f64> {
        answer.words_at(place)[..length].iter().map(|&bits| f64::from_bits(bits)).collect()
    };
    let order = answer.number_at(4);
    let n = terms(order);
    let (wcs, sums) = (floats(3, 6), floats(7, 3));
    Given { rows: answer.number_at(2), wcs, order, a: floats(5, n), b: floats(6, n), sums }
}

/// The text that a record is written back to, by the request's words: of format 1 the format's
/// digit and the sign bit of each coefficient change, and of format 2 nothing.
fn due_back(text: &[u8]) -> Vec<u8> {
    let mut lines = split_lines(text);
    if lines[0] == b"format=1\n" {
        lines[0] = b"format=2\n".to_vec();
        for line in lines.iter_mut().filter(|line| matches!(line[..], [b'a' | b'b', b'_', ..])) {
            line[6] = turned(line[6]);
        }
    }
    lines.concat()
}

/// The hex digit with its highest bit turned.
fn turned(digit: u8) -> u8 {
    const DIGITS: &[u8; 16] = b"0123456789abcdef";
    let value = DIGITS.iter().position(|&other| other == digit).expect("a hex digit");
    DIGITS[value ^ 8]
}

// ---- edges

/// Both formats, the one that is written first.
const FORMATS: [u32; 2] = [2, 1];

fn edge_cases(every: usize) -> Vec<Case> {
    let mut cases = whole_records(every);
    let small = room(2);
    cases.extend(other_texts(every).iter().map(|text| reading(text, small)));
    cases.extend(values_put_in(every).iter().map(|text| reading(text, small)));
    // the first record is thinned out least, and the longest most
    for (of, far) in records().iter().zip([2, 8, 52, 120]) {
        let texts = FORMATS.map(|format| damages(of, format, 1 + (every - 1) * far));
        for (place, text) in texts.concat().iter().enumerate() {
            let room = match place % 7 {
                3 => [0; 4],
                5 => room(of.order).map(|length| length - 1),
                _ => room(of.order),
            };
            cases.push(reading(text, room));
        }
    }
    cases
}

/// Each `every`-th of a series. Format 1 starts half-way, so that the two miss less together.
fn thinned<T>(series: Vec<T>, format: u32, every: usize) -> impl Iterator<Item = T> {
    let start = if format == 1 { every / 2 } else { 0 };
    series.into_iter().skip(start).step_by(every)
}

/// A record of each order, with all of its coefficients, some, none, and all.
fn records() -> [Given; 4] {
    [
        record(2, 42, |_| true),
        record(3, 7, |place| place % 3 == 1),
        record(4, 0, |_| false),
        record(5, 100, |_| true),
    ]
}

fn record(order: u32, rows: u64, kept: fn(usize) -> bool) -> Given {
    let mut random = Random::new(1, "records");
    let mut floats =
        |n: usize| -> Vec<f64> { (0..n).map(|_| random.between(-900.0, 900.0)).collect() };
    let (wcs, sums, mut a) = (floats(6), floats(3), floats(2 * terms(order)));
    let places = 0..a.len();
    places.filter(|&place| !kept(place)).for_each(|place| a[place] = 0.0);
    let b = a.split_off(terms(order));
    Given { rows, wcs, order, a, b, sums }
}

/// Records as they are written, as they were in format 1, and with the signs of the other format,
/// into room of every kind. Thinned out, the formats take turns, but for the room that is just
/// enough.
fn whole_records(every: usize) -> Vec<Case> {
    let far = vec![FURTHEST, -FURTHEST, f64::MAX, -f64::MAX, -0.0, 5e-324];
    let odd = Given {
        wcs: far,
        a: vec![f64::INFINITY, 1e-20f64.next_up(), f64::NAN],
        b: vec![-1e-20f64.next_up(), -0.0, f64::NEG_INFINITY],
        sums: vec![f64::NAN, f64::INFINITY, -0.0],
        ..Given::settled()
    };
    let mut cases = Vec::new();
    for (at, of) in records().into_iter().chain([Given::settled(), odd]).enumerate() {
        let texts =
            [of.text(), of.text_in(1), marked(of.text(), b'1'), marked(of.text_in(1), b'2')];
        let few = if of.order > 2 { every.div_ceil(5) } else { 1 };
        for (place, room) in rooms(of.order).into_iter().step_by(few).enumerate() {
            let turn = (at + place) % 2;
            let texts = if every == 1 || place == 0 { &texts[..] } else { &texts[turn..=turn] };
            cases.extend(texts.iter().map(|text| reading(text, room)));
        }
    }
    cases
}

/// Room that is just enough, more, none, too little, and each list of another length alone.
fn rooms(order: u32) -> Vec<Room> {
    let exact = room(order);
    let mut rooms = vec![exact, exact.map(|n| n + 2), [0; 4], exact.map(|n| n - 1)];
    for list in 0..4 {
        for length in [exact[list] - 1, exact[list] + 1, 0] {
            let mut room = exact;
            room[list] = length;
            rooms.push(room);
        }
    }
    rooms
}

/// The text with another digit in its format line.
fn marked(mut text: Vec<u8>, digit: u8) -> Vec<u8> {
    text[7] = digit;
    text
}

/// Texts that are no record as a whole.
fn other_texts(every: usize) -> Vec<Vec<u8>> {
    let mut texts: Vec<Vec<u8>> = ["", "\n", "\n\n", "\0", "=", "x"]
        .into_iter()
        .chain(["format=1\n\n", "format=2\n\n", "\u{feff}format=2\n", "format=1\nformat=2\n"])
        .map(|text| text.as_bytes().to_vec())
        .collect();
    let mut long = Vec::new();
    for format in FORMATS {
        let text = Given::settled().text_in(format);
        let tails: [&[u8]; 8] =
            [b"\n", b"x", b" ", b"\0", b"\xff", b"\r\n", b"wrms=0000000000000000\n", &text];
        let tailed = tails.map(|tail| [&text, tail].concat()).to_vec();
        texts.extend(tailed.into_iter().step_by(if format == 1 { every.div_ceil(5) } else { 1 }));
        texts.push(text[..text.len() - 1].to_vec());
        texts.push(text.to_ascii_uppercase());
        texts.push(String::from_utf8_lossy(&text).replace('\n', "\r\n").into_bytes());
        texts.push(String::from_utf8_lossy(&text).replace('\n', "\n\n").into_bytes());
        long.extend(long_texts(&text));
    }
    texts.extend(long.into_iter().step_by(every));
    texts
}

/// Texts that go on for long: behind the record, from the start, and in its second line.
fn long_texts(text: &[u8]) -> Vec<Vec<u8>> {
    let first = &text[..9];
    let mut long = Vec::new();
    for (more, digits) in [(1_000, 300), (5_000, 3_000)] {
        for byte in *b"x\n\0" {
            long.push([text, &vec![byte; more]].concat());
            long.push(vec![byte; more]);
        }
        for digit in *b"019" {
            let line = [b"rows=".to_vec(), vec![digit; digits]].concat();
            long.push([first, &line, b"\n", &text[16..]].concat());
            long.push([first, &line].concat());
        }
    }
    long
}

/// The scope's record in both formats with each line's value changed, and with a line more, which a
/// dropped coefficient has not. Thinned out, lines of a kind take turns with the floats, so that no
/// float is lost.
fn values_put_in(every: usize) -> Vec<Vec<u8>> {
    let mut texts = Vec::new();
    for format in FORMATS {
        let lines = split_lines(&Given::settled().text_in(format));
        for at in 0..lines.len() {
            let few = fewer(&lines[at], format, every);
            for line in revalued(&lines[at]).into_iter().skip(at % few).step_by(few) {
                let mut other = lines.clone();
                other[at] = line;
                texts.push(other.concat());
            }
        }
        for name in ["a_1_1", "b_0_2"] {
            let forms = revalued(format!("{name}=\n").as_bytes());
            for line in thinned(forms, format, every.div_ceil(8)) {
                let mut other = lines.clone();
                other.insert(10, line);
                texts.push(other.concat());
            }
        }
    }
    texts
}

/// How far the values of a line are thinned out: not at all where their sign may be turned, and
/// elsewhere more in format 1.
fn fewer(line: &[u8], format: u32, every: usize) -> usize {
    match (format, line) {
        (_, [b'a', ..]) => 1,
        (1, [b'o', ..]) => every.div_ceil(24),
        (1, _) => every.div_ceil(3),
        _ if line.len() < 16 => 1,
        _ => every.div_ceil(24),
    }
}

// ---- damage

/// The record of a format with a line more, cut short, and with each byte and each line damaged.
fn damages(of: &Given, format: u32, every: usize) -> Vec<Vec<u8>> {
    let text = &of.text_in(format);
    let mut texts = vec![[text, &b"\n"[..]].concat()];
    let mut add = |series, every| texts.extend(thinned(series, format, every));
    add(line_damages(text), every.div_ceil(25));
    add(byte_damages(text), every * 3 / 2);
    add((0..text.len()).map(|cut| text[..cut].to_vec()).collect(), every);
    add(line_pairs(text), every);
    add(at_each_line(text, misspelt), every.div_ceil(2));
    add(at_each_line(text, revalued), every);
    add(at_each_line(text, preceded), 2 * every - 1);
    texts
}

/// The lines, each with its newline.
fn split_lines(text: &[u8]) -> Vec<Vec<u8>> {
    text.split_inclusive(|&byte| byte == b'\n').map(<[u8]>::to_vec).collect()
}

/// Each byte turned into several others, dropped and doubled. All that is done to a byte stands
/// together, so that a thinned-out series has each kind of damage, and at each line.
fn byte_damages(text: &[u8]) -> Vec<Vec<u8>> {
    let mut random = Random::new(1, "bytes");
    let mut texts = Vec::new();
    for (at, &byte) in text.iter().enumerate() {
        let mut put = |new: &[u8]| texts.push([&text[..at], new, &text[at + 1..]].concat());
        let any = random.below(256) as u8;
        for other in [byte + 1, byte - 1, byte ^ 0x20, byte ^ 0x80, b'\n', any] {
            put(&[other]);
        }
        put(&[]);
        put(&[byte, byte]);
    }
    texts
}

/// Each line left out, doubled, and swapped with the next.
fn line_damages(text: &[u8]) -> Vec<Vec<u8>> {
    let lines = split_lines(text);
    let n = lines.len();
    let mut texts = Vec::new();
    let mut edit = |change: &dyn Fn(&mut Vec<Vec<u8>>)| {
        let mut other = lines.clone();
        change(&mut other);
        texts.push(other.concat());
    };
    for at in 0..n {
        edit(&|lines| drop(lines.remove(at)));
        edit(&|lines| lines.insert(at, lines[at].clone()));
        edit(&|lines| lines.swap(at, (at + 1) % n));
    }
    texts
}

/// Any two lines swapped.
fn line_pairs(text: &[u8]) -> Vec<Vec<u8>> {
    let lines = split_lines(text);
    let n = lines.len();
    let pairs = (0..n).flat_map(|first| (first + 1..n).map(move |second| (first, second)));
    let swapped = |(first, second)| {
        let mut other = lines.clone();
        other.swap(first, second);
        other.concat()
    };
    pairs.map(swapped).collect()
}

/// Each line in turn in each of its other forms.
fn at_each_line(text: &[u8], forms: fn(&[u8]) -> Vec<Vec<u8>>) -> Vec<Vec<u8>> {
    let mut texts = Vec::new();
    let mut start = 0;
    for line in split_lines(text) {
        let end = start + line.len();
        let put = |form: Vec<u8>| [&text[..start], &form, &text[end..]].concat();
        texts.extend(forms(&line).into_iter().map(put));
        start = end;
    }
    texts
}

/// Where the value of a line starts, and where it ends.
fn value_at(line: &[u8]) -> (usize, usize) {
    let end = line.len() - usize::from(line.ends_with(b"\n"));
    (line.iter().position(|&byte| byte == b'=').map_or(end, |at| at + 1), end)
}

/// The line with something before it, around its value or behind, or with a part changed.
fn misspelt(line: &[u8]) -> Vec<Vec<u8>> {
    let (value, end) = value_at(line);
    let mut lines = Vec::new();
    let mut put = |at: usize, new: &[u8]| lines.push([&line[..at], new, &line[at..]].concat());
    for new in [" ", "\t", "\n", "\r\n", "\0", "#", "\u{feff}"] {
        put(0, new.as_bytes());
    }
    for new in [" ", "\t", "0", "1", "+", "-", "=", "0x"] {
        put(value, new.as_bytes());
    }
    let behind: [&[u8]; 10] =
        [b" ", b"\t", b"\r", b"\0", b"0", b"\n", b"\x80", b"\xff", b";", b"="];
    behind.iter().for_each(|new| put(end, new));
    let (name, rest) = line.split_at(value);
    lines.push([&name.to_ascii_uppercase(), rest].concat());
    lines.push([name, &rest.to_ascii_uppercase()].concat());
    lines.push([name, b"\n"].concat());
    lines.push([name.strip_suffix(b"=").unwrap_or(name), rest].concat());
    lines.push([name.strip_suffix(b"=").unwrap_or(name), b": ", rest].concat());
    lines.push(b"\n".to_vec());
    lines
}

/// The line with other values: of those that its name may have and may not have the nearest ones.
fn revalued(line: &[u8]) -> Vec<Vec<u8>> {
    let (value, end) = value_at(line);
    let put = |new: &str| [&line[..value], new.as_bytes(), &line[end..]].concat();
    let numbers = match &line[..value] {
        b"format=" => {
            "0 1 2 3 4 9 01 02 10 11 12 20 21 +1 -1 1.0 2.0 257 258 4294967297 4294967298 \
             18446744073709551617 18446744073709551618"
        }
        b"rows=" => {
            "0 6 9 10 99 100 101 110 199 200 1000 00 06 010 0100 +6 -6 256 262 4294967302 \
             18446744073709551616 18446744073709551622 99999999999999999999 a 0x6 1e1"
        }
        b"order=" => {
            "0 1 2 3 4 5 6 9 10 02 22 25 258 +2 -2 4294967297 4294967298 18446744073709551618 two"
        }
        name => return edge_floats(name).iter().map(|bits| put(&format!("{bits:016x}"))).collect(),
    };
    numbers.split(' ').map(put).collect()
}

/// The bits of floats for a line: zeros, infinities, NaNs, and what is at the end of its name's range.
fn edge_floats(name: &[u8]) -> Vec<u64> {
    let ends = match name {
        [b'a' | b'b', b'_', ..] => edges::around(1e-20).to_vec(),
        [b'c', b'r', ..] => edges::around(FURTHEST).to_vec(),
        _ => vec![f64::MAX],
    };
    let both = ends.into_iter().chain([0.0, f64::INFINITY, 5e-324]).flat_map(|x| [x, -x]);
    let nans = [
        0x7ff8_0000_0000_0000,
        0xfff8_0000_0000_0000,
        0x7ff8_0000_0000_0001,
        0x7ff0_0000_0000_0001,
        0xfff0_0000_0000_0001,
        0x7ff7_ffff_ffff_ffff,
        0x7fff_ffff_ffff_ffff,
    ];
    both.map(f64::to_bits).chain(nans).collect()
}

/// A line of every term before this one, and of names that are none of a term.
fn preceded(line: &[u8]) -> Vec<Vec<u8>> {
    let degrees = (1..=6).flat_map(|total| (0..=total).map(move |q| (total - q, q)));
    let terms = degrees.flat_map(|(p, q)| ["a", "b"].map(|axis| format!("{axis}_{p}_{q}")));
    let others = ["c_2_0", "A_2_0", "a_02_0", "a_2_00", "a_2_0_0", "a_2_-0", "ap_2_0"];
    let names = terms.chain(others.map(str::to_string));
    names.map(|name| [format!("{name}=3fe0000000000000\n").as_bytes(), line].concat()).collect()
}

// ---- random

/// A solution that has a record, more often of a low order than of a high one.
fn random_record(random: &mut Random) -> Given {
    loop {
        let of = random_solution(random);
        let long = of.order > 3 && random.below(4) > 0;
        if !long && !of.text().is_empty() {
            return of;
        }
    }
}

/// Its record or a damaged one, into room of any kind. A third are of format 1.
fn random_case(random: &mut Random, of: &Given) -> Case {
    let mut text = of.text_in(random.one_of(&[1, 2, 2]));
    if random.below(2) == 0 {
        for _ in 0..=random.below(3) {
            text = damaged(random, &text);
        }
    }
    let mut room = room(of.order);
    let list = &mut room[random.below(4) as usize];
    match random.below(10) {
        0 => *list -= 1,
        1 => *list = 0,
        2 => *list += 1 + random.below(9) as usize,
        3 => room = room.map(|length| length + random.below(4) as usize),
        4 => room = room.map(|length| random.below(2 * length as u64) as usize),
        _ => {}
    }
    reading(&text, room)
}

/// One of the damages, at any line.
fn damaged(random: &mut Random, text: &[u8]) -> Vec<u8> {
    let mut lines = split_lines(text);
    if lines.is_empty() {
        return vec![random.below(256) as u8];
    }
    let [at, other] = [(); 2].map(|()| random.below(lines.len() as u64) as usize);
    match random.below(15) {
        0..4 => lines[at] = damaged_byte(random, &lines[at]),
        4 => drop(lines.remove(at)),
        5 => lines.insert(at, lines[at].clone()),
        6 => lines.swap(at, at.saturating_sub(1)),
        7 => lines.swap(at, other),
        8 | 9 => lines[at] = one_form(random, misspelt(&lines[at])),
        10 | 11 => lines[at] = one_form(random, revalued(&lines[at])),
        12 => lines[at] = one_form(random, preceded(&lines[at])),
        13 => lines.push(lines[at].clone()),
        _ => {
            lines.truncate(at + 1);
            let line = &mut lines[at];
            line.truncate(random.below(line.len() as u64) as usize);
        }
    }
    lines.concat()
}

fn one_form(random: &mut Random, mut forms: Vec<Vec<u8>>) -> Vec<u8> {
    let at = random.below(forms.len() as u64) as usize;
    forms.swap_remove(at)
}

fn damaged_byte(random: &mut Random, line: &[u8]) -> Vec<u8> {
    let mut line = line.to_vec();
    let at = random.below(line.len() as u64) as usize;
    let byte = line[at];
    match random.below(8) {
        0 => drop(line.remove(at)),
        1 => line.insert(at, byte),
        2 => line[at] = byte.wrapping_add(1),
        3 => line[at] = byte.wrapping_sub(1),
        4 => line[at] = byte ^ 0x20,
        5 => line[at] = b'\n',
        6 => line[at] = random.one_of(b"0123456789abcdef"),
        _ => line[at] = random.below(256) as u8,
    }
    line
}

#[cfg(test)]
mod tests {
    use super::*;

    /// The number of the answer, and of the line where the text is wrong.
    fn told(case: &Case) -> (u32, u64) {
        let answer = (READ_RECORD.theirs)(case);
        (answer.number_at(0), answer.number_at(8))
    }

    /// Thinned out as it is stored, the damage of the first record is at every line, and behind
    /// them, in each format.
    #[test]
    fn every_line_is_damaged() {
        let of = &records()[0];
        assert_eq!(split_lines(&of.text()).len(), 18);
        for format in FORMATS {
            let texts = damages(of, format, 49);
            let wrong: Vec<_> = texts.iter().map(|text| told(&reading(text, room(2)))).collect();
            for line in 1..=19 {
                let found = wrong.iter().filter(|&&told| told == (10, line)).count();
                assert!(found > 1 || line == 19 && found > 0, "{format}, line {line}: {found}");
            }
        }
    }

    #[test]
    fn each_answer_is_asked_for_in_each_format() {
        let mut random = Random::new(1, READ_RECORD.name);
        let drawn: Vec<Case> = (0..300).map(|_| (READ_RECORD.random)(&mut random)).collect();
        let edges = edge_cases(25);
        assert!(edges.len() >= 300);
        for cases in [edges, drawn] {
            for (wanted, format) in [0, 7, 10].into_iter().flat_map(|n| FORMATS.map(|f| (n, f))) {
                let first = format!("format={format}\n");
                let named = |case: &Case| case.numbers_at::<u8>(0).starts_with(first.as_bytes());
                let asked = |case: &&Case| told(case).0 == wanted && named(case);
                assert!(cases.iter().filter(asked).count() > 10, "{wanted}, {format}");
            }
        }
    }

    /// What the oracle's writer wrote, its reader gives back, and from format 1 too.
    #[test]
    fn a_written_record_reads_back() {
        let mut random = Random::new(1, "read back");
        for _ in 0..1000 {
            let of = random_record(&mut random);
            let kept = |c: &f64| if c.abs() > 1e-20 { *c } else { 0.0 };
            let [a, b] = [&of.a, &of.b].map(|axis| axis.iter().map(kept).collect::<Vec<_>>());
            let solved = Answer::new().floats(&of.wcs).number(of.order).floats(&a).floats(&b);
            let solved = solved.floats(&of.sums).number(WORD);
            for (format, text) in [(1, of.text_in(1)), (2, of.text())] {
                let answer = (READ_RECORD.theirs)(&reading(&text, room(of.order)));
                assert_eq!(answer.to_string(), format!("0 {format} {} {solved}", of.rows));
            }
        }
    }

    /// By the oracle's reader the text that is due shows the same solution, and the oracle's writer
    /// writes it.
    #[test]
    fn what_is_due_is_the_same_solution() {
        let mut random = Random::new(1, WRITTEN_BACK.name);
        let mut accepted = [0; 2];
        for _ in 0..1000 {
            let case = (WRITTEN_BACK.random)(&mut random);
            let text = case.numbers_at::<u8>(0);
            let answer = (WRITTEN_BACK.theirs)(&case);
            if answer.number_at::<u32>(0) != 0 {
                continue;
            }
            let format: usize = answer.number_at(1);
            accepted[format - 1] += 1;
            let due = answer.numbers_at::<u8>(9);
            assert_eq!(due == text, format == 2);
            assert_eq!(due, shown(&answer).text());
            let words = answer.to_string();
            let words: Vec<&str> = words.split(' ').collect();
            assert_eq!((words[10], words[11], &words[12..]), ("0", "2", &words[2..9]));
        }
        assert!(accepted.iter().all(|&n| n > 100), "{accepted:?}");
    }
}
