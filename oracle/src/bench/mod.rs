//! Times of Moorspindle and of what the Rust calls, taken in turn in one run.

use std::hint::black_box;
use std::time::Instant;

pub mod cd;
pub mod floats;
pub mod index;
pub mod matching;
pub mod quad;
pub mod record;
pub mod run;
pub mod sip;

const ROUNDS: usize = 61;

/// Hands back the nanoseconds that a call took.
type Timed = Box<dyn Fn() -> f64>;

/// One way to answer a call, ready to be timed over inputs that were made before.
pub struct Row {
    pub call: &'static str,
    by: &'static str,
    /// The name of the call that it times, if that is Moorspindle's.
    pub of: Option<&'static str>,
    pub apart: Timed,
    chained: Option<Timed>,
}

impl Row {
    /// Calls that do not depend on each other. Moorspindle's row is the first of its call.
    pub fn over<I: Clone + 'static, A>(
        call: &'static str,
        by: &'static str,
        inputs: &[I],
        answer: impl Fn(&I) -> A + 'static,
    ) -> Row {
        let inputs = inputs.to_vec();
        let apart = Box::new(move || {
            let start = Instant::now();
            for input in &inputs {
                black_box(answer(black_box(input)));
            }
            nanoseconds(start, inputs.len())
        });
        Row { call, by, of: None, apart, chained: None }
    }

    /// One call, whose answer is dropped when the clock has been read.
    pub fn kept<A>(call: &'static str, by: &'static str, answer: impl Fn() -> A + 'static) -> Row {
        let apart = Box::new(move || {
            let start = Instant::now();
            let kept = black_box(answer());
            let time = nanoseconds(start, 1);
            drop(kept);
            time
        });
        Row { call, by, of: None, apart, chained: None }
    }

    /// Says that it times this call of Moorspindle's.
    pub fn of(self, call: &'static str) -> Row {
        Row { of: Some(call), ..self }
    }

    /// The same of a float, and then in a chain, where each call waits for the last.
    pub fn of_float<A: Bits>(
        call: &'static str,
        by: &'static str,
        inputs: &[f64],
        answer: impl Fn(f64) -> A + Copy + 'static,
    ) -> Row {
        let apart = Row::over(call, by, inputs, move |&x| answer(x));
        let inputs = inputs.to_vec();
        let chained = Box::new(move || {
            // no bit of the last answer gets into an input, but the compiler cannot know that
            let none = black_box(0);
            let mut last = 0;
            let start = Instant::now();
            for x in &inputs {
                last = answer(f64::from_bits(x.to_bits() ^ (last & none))).bits();
            }
            black_box(last);
            nanoseconds(start, inputs.len())
        });
        Row { chained: Some(chained), ..apart }
    }
}

/// An answer's bits, for the chain.
pub trait Bits {
    fn bits(self) -> u64;
}

impl Bits for f64 {
    fn bits(self) -> u64 {
        self.to_bits()
    }
}

impl Bits for i32 {
    fn bits(self) -> u64 {
        self as u64
    }
}

fn nanoseconds(start: Instant, calls: usize) -> f64 {
    start.elapsed().as_secs_f64() * 1e9 / calls as f64
}

/// Times the rows, and prints the medians as a table.
pub fn print(rows: &[Row]) {
    for line in table(rows, &medians(rows)) {
        println!("{line}");
    }
}

/// The median of a call, and of one in a chain where it was timed so.
type Medians = [Option<f64>; 2];

/// Times the rows, each once in every round.
fn medians(rows: &[Row]) -> Vec<Medians> {
    let mut times = vec![(Vec::new(), Vec::new()); rows.len()];
    for _ in 0..ROUNDS {
        for (row, (apart, chained)) in rows.iter().zip(&mut times) {
            apart.push((row.apart)());
            chained.extend(row.chained.as_ref().map(|timed| timed()));
        }
    }
    times.into_iter().map(|(apart, chained)| [median(apart), median(chained)]).collect()
}

fn median(mut times: Vec<f64>) -> Option<f64> {
    times.sort_by(f64::total_cmp);
    times.get(times.len() / 2).copied()
}

/// The lines of the table; the columns of the chain only where there is one.
fn table(rows: &[Row], medians: &[Medians]) -> Vec<String> {
    let columns = if rows.iter().any(|row| row.chained.is_some()) { 2 } else { 1 };
    let heads = [" ns a call | Moorspindle / this |", " ns in a chain | Moorspindle / this |"];
    let head = format!("| call | by |{}", heads[..columns].concat());
    let mut lines = vec![head, format!("|---|---|{}", "--:|--:|".repeat(columns))];
    let (mut call, mut ours) = ("", [None; 2]);
    for (row, medians) in rows.iter().zip(medians) {
        if row.of.is_some() {
            (call, ours) = (row.call, *medians);
        }
        let beside = row.of.is_none() && row.call == call;
        let mut line = format!("| {} | {} |", row.call, row.by);
        for (time, ours) in medians.iter().zip(ours).take(columns) {
            let ratio = ours.zip(*time).filter(|_| beside).map(|(ours, time)| ours / time);
            line += &format!(" {} | {} |", cell(*time, nanoseconds_of), cell(ratio, ratio_of));
        }
        lines.push(line);
    }
    lines
}

fn cell(number: Option<f64>, form: fn(f64) -> String) -> String {
    number.map_or(String::new(), form)
}

fn nanoseconds_of(time: f64) -> String {
    if time < 10_000.0 { format!("{time:.2}") } else { whole(time) }
}

/// A ratio above 1 is marked by bold type: Moorspindle is the slower one there.
fn ratio_of(ratio: f64) -> String {
    let shown = (ratio * 100.0).round() / 100.0;
    if shown > 1.0 { format!("**{shown:.2}**") } else { format!("{shown:.2}") }
}

/// The number rounded, with commas between its thousands.
pub fn whole(number: f64) -> String {
    let digits = format!("{number:.0}");
    let mut text = String::new();
    for (place, digit) in digits.chars().enumerate() {
        if place > 0 && (digits.len() - place) % 3 == 0 {
            text.push(',');
        }
        text.push(digit);
    }
    text
}

#[cfg(test)]
mod tests {
    use super::*;
    use crate::calls::GROUPS;
    use crate::random::Random;

    /// The names of the header's calls, without their common start.
    fn declared() -> Vec<&'static str> {
        let header = include_str!("../../../bindings/c/moorspindle.h");
        let after = header.split("moorspindle_").skip(1);
        after.filter_map(|text| text.split_once('(')).map(|(name, _)| name).collect()
    }

    #[test]
    fn every_call_is_timed_beside_another() {
        let group = |group: &crate::calls::Group| (group.bench)(&mut Random::new(1, group.name));
        let rows: Vec<Row> = GROUPS.iter().flat_map(group).collect();
        let calls = GROUPS.iter().flat_map(|group| group.calls).map(|call| call.name);
        let (mut calls, mut declared): (Vec<_>, _) = (calls.collect(), declared());
        calls.sort_unstable();
        declared.sort_unstable();
        assert_eq!(declared.len(), 31);
        assert_eq!(calls, declared);
        for name in declared {
            assert!(rows.iter().any(|row| row.of == Some(name)), "{name} is not timed");
        }
        for row in &rows {
            assert_eq!(row.of.is_some(), row.by == "Moorspindle", "{}", row.call);
            let beside = rows.iter().any(|other| other.call == row.call && other.of != row.of);
            assert!(beside || row.call == "the loop alone", "{} stands alone", row.call);
        }
    }

    #[test]
    fn a_table_marks_where_moorspindle_is_slower() {
        let row = |by| Row::over("key", by, &[()], |_| ());
        let rows = [row("Moorspindle").of("discrete_hash_key"), row("a"), row("b"), row("c")];
        let times = [3.0, 2.0, 3.0, 12_345.6].map(|time| [Some(time), None]);
        let lines = table(&rows, &times);
        assert_eq!(
            lines[..2],
            ["| call | by | ns a call | Moorspindle / this |", "|---|---|--:|--:|"]
        );
        assert_eq!(lines[2], "| key | Moorspindle | 3.00 |  |");
        assert_eq!(lines[3], "| key | a | 2.00 | **1.50** |");
        assert_eq!(lines[4], "| key | b | 3.00 | 1.00 |");
        assert_eq!(lines[5], "| key | c | 12,346 | 0.00 |");
    }

    #[test]
    fn the_chain_has_columns_of_its_own() {
        let row = |by| Row::of_float("root", by, &[1.0], |x| x);
        let rows = [row("Moorspindle").of("root"), row("a")];
        let lines = table(&rows, &[[Some(1.0), Some(9.0)], [Some(2.0), Some(4.0)]]);
        assert_eq!(lines[2], "| root | Moorspindle | 1.00 |  | 9.00 |  |");
        assert_eq!(lines[3], "| root | a | 2.00 | 0.50 | 4.00 | **2.25** |");
    }

    #[test]
    fn thousands_have_commas() {
        let texts = [0.0, 999.4, 999.5, 89_206.0, 1_000_000.0].map(whole);
        assert_eq!(texts, ["0", "999", "1,000", "89,206", "1,000,000"]);
    }
}
