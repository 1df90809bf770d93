//! The oracle: the Rust that is ported and Moorspindle, on the same cases. See README.md.

use std::collections::HashSet;
use std::io::{self, BufRead, BufWriter, Write};
use std::process::ExitCode;
use std::str::FromStr;

use calls::{Call, GROUPS, Group};
use case::{Answer, Case};
use random::Random;

mod archive;
mod bench;
mod calls;
mod case;
mod compare;
mod edges;
mod frame;
mod guard;
mod ours;
mod random;
mod rows;
#[cfg(any(test, feature = "stack"))]
mod stack;
#[cfg(not(any(test, feature = "stack")))]
#[path = "stack_off.rs"]
mod stack;
mod stars;
mod theirs;

const USAGE: &str = "\
usage: oracle compare [GROUP] [--count N] [--seed S]   both sides on all edges and N random cases
       oracle guard [COUNT]                            every call with all that is lent between guard pages
       oracle frame [FILE]                             a whole frame through both sides, by steps
       oracle bench [GROUP]                            nanoseconds a call
       oracle stack [COUNT]                            the stack of each call, the size of the archive
       oracle cases GROUP COUNT SEED                   print edge cases, then random ones
       oracle answer                                   cases on standard input: the Rust's answers
       oracle ours                                     the same through Moorspindle";

/// `cases` prints each of this many of a long series at the edges; `compare` tries them all.
const EVERY: usize = 25;

type Outcome<T> = Result<T, String>;

fn main() -> ExitCode {
    let words: Vec<String> = std::env::args().skip(1).collect();
    let words: Vec<&str> = words.iter().map(String::as_str).collect();
    match run(&words) {
        Ok(true) => ExitCode::SUCCESS,
        Ok(false) => ExitCode::from(1),
        Err(message) => {
            eprintln!("oracle: {message}");
            ExitCode::from(2)
        }
    }
}

/// False when an answer differed.
fn run(words: &[&str]) -> Outcome<bool> {
    match words {
        ["compare", options @ ..] => return compare(options),
        ["guard"] => return Ok(guard::run(EVERY, 300)),
        ["guard", count] => return Ok(guard::run(EVERY, parse(count)?)),
        ["frame"] => return frame::example(),
        ["frame", path] => return frame::of(path),
        ["bench", name @ ..] => {
            for group in groups(name)? {
                println!("## {}\n", group.title);
                bench::print(&(group.bench)(&mut Random::new(1, group.name)));
                println!();
                for line in (group.tables)(&mut Random::new(1, group.name)) {
                    println!("{line}");
                }
            }
        }
        ["stack"] => stack(300)?,
        ["stack", count] => stack(parse(count)?)?,
        ["cases", name, count, seed] => {
            let lines = cases(group(name)?, parse(count)?, parse(seed)?);
            print(lines.into_iter().map(Ok))?;
        }
        ["answer"] => answer(|call| call.theirs)?,
        ["ours"] => answer(|call| call.ours)?,
        _ => return Err(USAGE.to_string()),
    }
    Ok(true)
}

fn compare(options: &[&str]) -> Outcome<bool> {
    let (mut names, mut count, mut seed) = (Vec::new(), None, 1);
    let mut rest = options;
    loop {
        rest = match rest {
            [] => break,
            ["--count", n, rest @ ..] => {
                count = Some(parse(n)?);
                rest
            }
            ["--seed", s, rest @ ..] => {
                seed = parse(s)?;
                rest
            }
            [name, rest @ ..] => {
                names.push(*name);
                rest
            }
        }
    }
    let mut same = true;
    for group in groups(&names)? {
        same &= compare::group(group, count, seed);
    }
    Ok(same)
}

/// The last section of the benchmark.
fn stack(count: usize) -> Outcome<()> {
    let tables = [stack::table(count)?, archive::table()?];
    println!("## Stack and size\n");
    for table in tables {
        println!("{}\n", table.join("\n"));
    }
    Ok(())
}

fn group(name: &str) -> Outcome<&'static Group> {
    calls::group(name).ok_or(format!("there is no group {name}"))
}

/// The one group that is named, or all.
fn groups(names: &[&str]) -> Outcome<Vec<&'static Group>> {
    match names {
        [] => Ok(GROUPS.iter().collect()),
        [name] => Ok(vec![group(name)?]),
        _ => Err(USAGE.to_string()),
    }
}

fn parse<T: FromStr>(word: &str) -> Outcome<T> {
    word.parse().map_err(|_| format!("{word} is no number here"))
}

/// The lines of the group's cases, its calls in turn, and no line twice.
fn cases(group: &Group, count: usize, seed: u64) -> Vec<String> {
    let mut lines = Vec::new();
    let mut seen = HashSet::new();
    let mut add = |call: &Call, case: &Case| {
        let line = format!("{} {case}", call.name);
        if seen.insert(line.clone()) {
            lines.push(line);
        }
    };
    let edges: Vec<_> = group.calls.iter().map(|call| (call.edges)(EVERY)).collect();
    let longest = edges.iter().map(Vec::len).max().unwrap_or(0);
    for place in 0..longest {
        for (call, edges) in group.calls.iter().zip(&edges) {
            if let Some(case) = edges.get(place) {
                add(call, case);
            }
        }
    }
    let mut random = Random::new(seed, group.name);
    for call in group.calls.iter().cycle().take(count) {
        add(call, &(call.random)(&mut random));
    }
    lines
}

/// Reads cases, prints the answer of one side to each.
fn answer(side: fn(&Call) -> fn(&Case) -> Answer) -> Outcome<()> {
    let lines = io::stdin().lock().lines().enumerate();
    print(lines.map(|(place, line)| {
        let line = line.map_err(|error| error.to_string())?;
        let at = |problem| format!("line {}: {problem}", place + 1);
        let words: Vec<&str> = line.split(' ').collect();
        let call = calls::call(words[0]).ok_or_else(|| at(format!("no call {}", words[0])))?;
        let case = Case::parse(&words[1..], call.takes).map_err(at)?;
        Ok(side(call)(&case).to_string())
    }))
}

fn print(lines: impl Iterator<Item = Outcome<String>>) -> Outcome<()> {
    let mut out = BufWriter::new(io::stdout().lock());
    for line in lines {
        writeln!(out, "{}", line?).map_err(|error| error.to_string())?;
    }
    out.flush().map_err(|error| error.to_string())
}
