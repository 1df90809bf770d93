//! The stack that each call takes: what lies below a call is painted, the call is made, and the
//! deepest word that lost its paint is looked for.
//!
//! This is so in a build with the feature `stack`, and in the tests. Elsewhere `stack_off.rs` stands
//! in its place, so that nothing but the call is timed.

use std::arch::asm;
use std::cell::Cell;
use std::hint::black_box;
use std::mem::MaybeUninit;
use std::thread;

use crate::Outcome;
use crate::bench::{Row, whole};
use crate::calls::{Call, GROUPS, Group};
use crate::case::Case;
use crate::random::Random;

/// So much is painted below a call. One that takes more ends the program, and is not measured short.
const SPAN: usize = 512 * 1024;

/// How far the call is from what paints and looks, whose own frames lie between.
const APART: usize = 8 * 1024;

const WORD: usize = size_of::<usize>();

/// Of each series of cases beside a call's own, so many random ones: some of them are large.
const ALSO: usize = 10;

thread_local! {
    /// The most that a call took since measuring began; none while nothing is measured.
    static MOST: Cell<Option<usize>> = const { Cell::new(None) };
}

/// Makes the call, and measures it while that is asked for.
pub fn called<A>(call: impl FnOnce() -> A) -> A {
    let Some(most) = MOST.get() else { return call() };
    let (answer, bytes) = measured(call);
    MOST.set(Some(most.max(bytes)));
    answer
}

/// The most stack that one of the calls took that were made in this work.
fn most_in(work: impl FnOnce()) -> usize {
    MOST.set(Some(0));
    work();
    MOST.take().unwrap_or(0)
}

/// The answer, and how many bytes below its caller the call wrote to.
#[inline(never)]
fn measured<A>(call: impl FnOnce() -> A) -> (A, usize) {
    let here = stack_pointer() & !(WORD - 1);
    let end = here - SPAN;
    paint(end, here - APART / 2);
    let (answer, from) = apart(call);
    let deepest = deepest(end, from);
    assert!(deepest > end, "the call took more than {SPAN} bytes: SPAN is too short");
    (answer, from - deepest)
}

/// Makes the call from far below, and says from where.
#[inline(never)]
fn apart<A>(call: impl FnOnce() -> A) -> (A, usize) {
    let mut between = MaybeUninit::<[u8; APART]>::uninit();
    black_box(&mut between);
    let from = stack_pointer();
    let answer = call();
    black_box(&mut between);
    (answer, from)
}

#[inline(always)]
fn stack_pointer() -> usize {
    let at: usize;
    #[cfg(target_arch = "x86_64")]
    unsafe {
        asm!("mov {}, rsp", out(reg) at, options(nostack, preserves_flags))
    };
    #[cfg(target_arch = "aarch64")]
    unsafe {
        asm!("mov {}, sp", out(reg) at, options(nostack, preserves_flags))
    };
    at
}

/// Each word has a paint of its own, which no call writes there by chance.
fn painted(at: usize) -> usize {
    at ^ 0x5bd1_e995_a5c3_96e1
}

/// Paints a part of this thread's stack that is not in use.
#[inline(never)]
fn paint(end: usize, start: usize) {
    for at in (end..start).step_by(WORD) {
        unsafe { (at as *mut usize).write(painted(at)) };
    }
}

/// The lowest word whose paint is gone, or the start.
#[inline(never)]
fn deepest(end: usize, start: usize) -> usize {
    let mut words = (end..start).step_by(WORD);
    words.find(|&at| unsafe { (at as *const usize).read() } != painted(at)).unwrap_or(start)
}

/// What an empty call takes: its return address, where that goes by the stack.
fn empty() -> usize {
    extern "C" fn nothing() {}
    let nothing = black_box(nothing as extern "C" fn());
    most_in(|| called(|| nothing()))
}

/// A table of all calls: each over its cases at the edges, `count` random ones, the further series of
/// its group, and what it is timed with.
pub fn table(count: usize) -> Outcome<Vec<String>> {
    // all of the thread's stack is there from the start, so that it can be painted
    let measuring = thread::Builder::new().stack_size(8 * SPAN).spawn(move || {
        let groups = GROUPS.iter().flat_map(|group| lines(group, count));
        groups.collect::<Vec<_>>()
    });
    let lines = measuring.map_err(|error| error.to_string())?.join();
    let mut table =
        vec!["| call | timed as | bytes of stack |".to_string(), "|---|---|--:|".to_string()];
    table.extend(lines.map_err(|_| "the stack was not measured")?);
    Ok(table)
}

fn lines(group: &Group, count: usize) -> Vec<String> {
    let rows = (group.bench)(&mut Random::new(1, group.name));
    let line = |call: &Call| {
        let rows: Vec<&Row> = rows.iter().filter(|row| row.of == Some(call.name)).collect();
        let also = group.also.iter().filter(|also| also.is_of(call.name));
        let series = also.map(|also| over_cases(also, also.count.min(ALSO)));
        let most = over_rows(&rows).max(over_cases(call, count));
        let most = series.fold(most, usize::max) - empty();
        let names: Vec<&str> = rows.iter().map(|row| row.call).collect();
        format!("| `{}` | {} | {} |", call.name, names.join("; "), whole(most as f64))
    };
    group.calls.iter().map(line).collect()
}

fn over_rows(rows: &[&Row]) -> usize {
    most_in(|| {
        for row in rows {
            (row.apart)();
        }
    })
}

fn over_cases(call: &Call, count: usize) -> usize {
    let mut random = Random::new(1, call.name);
    let edges = (call.edges)(1).into_iter();
    // a case is made before it is measured, since some take calls to make
    let of = |case: Case| most_in(|| drop((call.ours)(&case)));
    let most = edges.map(of).max().unwrap_or(0);
    (0..count).map(|_| of((call.random)(&mut random))).fold(most, usize::max)
}

#[cfg(test)]
mod tests {
    use super::*;

    /// A call that fills a list of N bytes.
    extern "C" fn filling<const N: usize>() {
        black_box(&mut [1u8; N]);
    }

    fn taken(call: extern "C" fn()) -> usize {
        let call = black_box(call);
        most_in(|| called(|| call()))
    }

    fn is_measured<const N: usize>() {
        let bytes = taken(filling::<N>);
        assert!((N..N + 512).contains(&bytes), "{bytes} for {N}");
    }

    #[test]
    fn a_list_of_known_length() {
        is_measured::<64>();
        is_measured::<1_000>();
        is_measured::<48_000>();
        is_measured::<168_000>();
    }

    #[test]
    fn an_empty_call_is_its_return_address() {
        assert!(empty() <= 2 * WORD, "{}", empty());
    }

    #[test]
    fn the_deepest_of_many_calls_counts() {
        let calls = [filling::<100>, filling::<9_000>, filling::<200>];
        let most = most_in(|| calls.into_iter().for_each(|call| called(|| black_box(call)())));
        assert_eq!(most, taken(filling::<9_000>));
    }

    #[test]
    fn nothing_is_measured_unasked() {
        called(|| filling::<500>());
        assert_eq!(most_in(|| ()), 0);
        assert_eq!(MOST.get(), None);
    }

    /// A call past what is painted is not measured short.
    #[test]
    #[should_panic(expected = "SPAN is too short")]
    fn more_than_is_painted() {
        taken(filling::<{ SPAN + 4096 }>);
    }
}
