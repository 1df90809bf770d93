//! The calls that are compared, in groups: one for each part of the port.

use crate::bench::Row;
use crate::case::{Answer, Case, Kind};
use crate::random::Random;

mod cd;
mod floats;
mod index;
mod matching;
mod quad;
mod reader;
mod record;
mod run;
pub mod sip;

pub const GROUPS: &[Group] = &[
    floats::GROUP,
    quad::GROUP,
    matching::GROUP,
    cd::GROUP,
    run::GROUP,
    sip::GROUP,
    record::GROUP,
];

/// A call of Moorspindle's, its cases, and the two sources of its answers.
pub struct Call {
    pub name: &'static str,
    /// The fields of a case.
    pub takes: &'static [Kind],
    /// The cases at the edges, of a long series each `every`-th.
    pub edges: fn(every: usize) -> Vec<Case>,
    pub random: fn(&mut Random) -> Case,
    /// How many random cases `compare` tries unless told otherwise.
    pub count: usize,
    /// The Rust's answer.
    pub theirs: fn(&Case) -> Answer,
    /// Moorspindle's.
    pub ours: fn(&Case) -> Answer,
}

impl Call {
    /// It is one of the series of this call: their names start with the call's.
    #[cfg(any(test, feature = "stack"))]
    pub fn is_of(&self, call: &str) -> bool {
        self.name.split([':', ',']).next() == Some(call)
    }
}

pub struct Group {
    pub name: &'static str,
    /// The heading of its times.
    pub title: &'static str,
    pub calls: &'static [Call],
    /// More comparisons, with cases or answers from elsewhere: `compare` alone makes them.
    pub also: &'static [Call],
    /// Facts that `compare` reports and no verdict hangs on.
    pub notes: fn(&mut Random) -> Vec<String>,
    /// What `bench` times.
    pub bench: fn(&mut Random) -> Vec<Row>,
    /// The lines of further tables of times, which `bench` prints below.
    pub tables: fn(&mut Random) -> Vec<String>,
}

pub fn group(name: &str) -> Option<&'static Group> {
    GROUPS.iter().find(|group| group.name == name)
}

pub fn call(name: &str) -> Option<&'static Call> {
    let mut calls = GROUPS.iter().flat_map(|group| group.calls);
    calls.find(|call| call.name == name)
}
