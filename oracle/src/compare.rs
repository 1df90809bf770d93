//! Both sides on the same cases, in one process.

use std::time::Instant;

use crate::calls::{Call, Group};
use crate::random::Random;

const SHOWN: usize = 5;

/// Of so many random cases one is tried a second time, damaged.
const DAMAGED: usize = 4;

/// Prints a line for each comparison of the group; true if no answer differed.
pub fn group(group: &Group, count: Option<usize>, seed: u64) -> bool {
    let mut same = true;
    for call in group.calls {
        same &= one(call, count.unwrap_or(call.count), seed);
    }
    for call in group.also {
        same &= one(call, call.count.min(count.unwrap_or(call.count)), seed);
    }
    for note in (group.notes)(&mut Random::new(seed, group.name)) {
        println!("{note}");
    }
    same
}

fn one(call: &Call, count: usize, seed: u64) -> bool {
    let start = Instant::now();
    let mut random = Random::new(seed, call.name);
    let mut hammer = Random::new(seed, "damaged");
    let edges = (call.edges)(1);
    let drawn = (0..count).flat_map(|place| {
        let case = (call.random)(&mut random);
        let damaged = (place % DAMAGED == 0).then(|| case.clone().damaged(&mut hammer));
        [Some(case), damaged].into_iter().flatten()
    });
    let mut different = Vec::new();
    let (mut total, mut differing) = (0, 0);
    for case in edges.into_iter().chain(drawn) {
        total += 1;
        let (theirs, ours) = ((call.theirs)(&case), (call.ours)(&case));
        if theirs != ours {
            differing += 1;
            if different.len() < SHOWN {
                different.push((case, theirs, ours));
            }
        }
    }
    let seconds = start.elapsed().as_secs_f64();
    let name = call.name;
    println!("{name:<28} {total:>10} cases {differing:>8} different {seconds:>7.2} s");
    for (case, theirs, ours) in different {
        println!("    {name} {case}\n        the Rust     {theirs}\n        Moorspindle  {ours}");
    }
    differing == 0
}
