//! Lent memory between pages that may not be touched: a read or a write outside ends the program.
//!
//! Memory that is asked for while a side is guarded lies at that side's end of pages of its own,
//! with a page beside it that is neither readable nor writable, and one on the other side too.

use std::alloc::{GlobalAlloc, Layout, System};
use std::ffi::c_void;
use std::ptr;
use std::sync::atomic::{AtomicU8, AtomicUsize, Ordering::Relaxed};

use crate::calls::{Call, GROUPS};
use crate::random::Random;

#[global_allocator]
static MEMORY: Guarded = Guarded;

static SIDE: AtomicU8 = AtomicU8::new(NEITHER);
const NEITHER: u8 = 0;
const BEHIND: u8 = 1;
const BEFORE: u8 = 2;

/// The addresses that are taken for guarded memory, and the next free one of them.
static START: AtomicUsize = AtomicUsize::new(0);
static NEXT: AtomicUsize = AtomicUsize::new(0);
const RANGE: usize = 1 << 40;
const PAGE: usize = 4096;

unsafe extern "C" {
    fn mmap(at: *mut c_void, len: usize, prot: i32, flags: i32, fd: i32, from: i64) -> *mut c_void;
    fn mprotect(at: *mut c_void, len: usize, prot: i32) -> i32;
    fn madvise(at: *mut c_void, len: usize, advice: i32) -> i32;
}

const NO_ACCESS: i32 = 0;
const READ_WRITE: i32 = 3;
const PRIVATE_ANONYMOUS_UNRESERVED: i32 = 0x2 | 0x20 | 0x4000;
const NOT_NEEDED: i32 = 4;

struct Guarded;

// SAFETY: guarded memory lies in pages of its own, which are handed out once and never again
unsafe impl GlobalAlloc for Guarded {
    unsafe fn alloc(&self, layout: Layout) -> *mut u8 {
        let side = SIDE.load(Relaxed);
        if side == NEITHER {
            return unsafe { System.alloc(layout) };
        }
        let pages = layout.size().next_multiple_of(PAGE);
        let first = NEXT.fetch_add(pages + 2 * PAGE, Relaxed) + PAGE;
        if unsafe { mprotect(first as *mut c_void, pages, READ_WRITE) } != 0 {
            return ptr::null_mut();
        }
        let at = if side == BEHIND { first + pages - layout.size() } else { first };
        (at & !(layout.align() - 1)) as *mut u8
    }

    unsafe fn dealloc(&self, at: *mut u8, layout: Layout) {
        let start = START.load(Relaxed);
        if start == 0 || !(start..start + RANGE).contains(&(at as usize)) {
            return unsafe { System.dealloc(at, layout) };
        }
        let first = (at as usize & !(PAGE - 1)) as *mut c_void;
        let pages = layout.size().next_multiple_of(PAGE);
        unsafe {
            mprotect(first, pages, NO_ACCESS);
            madvise(first, pages, NOT_NEEDED);
        }
    }
}

/// Every call of Moorspindle's on edge cases and random ones, all that is lent guarded behind, and
/// then before. True if each answer is also the Rust's.
pub fn run(every: usize, count: usize) -> bool {
    let none = ptr::null_mut();
    let start = unsafe { mmap(none, RANGE, NO_ACCESS, PRIVATE_ANONYMOUS_UNRESERVED, -1, 0) };
    assert!(start as isize != -1, "no addresses for guarded memory");
    NEXT.store(start as usize, Relaxed);
    START.store(start as usize, Relaxed);
    let mut same = true;
    for call in GROUPS.iter().flat_map(|group| group.calls) {
        let mut random = Random::new(1, call.name);
        let mut cases = (call.edges)(every);
        cases.extend((0..count).map(|_| (call.random)(&mut random)));
        let differing = cases.iter().filter(|case| !is_same(call, case)).count();
        println!("{:<28} {:>10} cases, guarded {differing:>8} different", call.name, cases.len());
        same &= differing == 0;
    }
    same
}

fn is_same(call: &Call, case: &crate::case::Case) -> bool {
    let theirs = (call.theirs)(case);
    [BEHIND, BEFORE].into_iter().all(|side| {
        SIDE.store(side, Relaxed);
        let copy = case.clone();
        let ours = (call.ours)(&copy);
        SIDE.store(NEITHER, Relaxed);
        ours == theirs
    })
}

#[cfg(test)]
mod tests {
    use std::process::Command;

    /// A read past the end ends the program: the guard is no test that cannot fail.
    #[test]
    fn a_read_outside_is_seen() {
        let program = std::env::current_exe().unwrap();
        if std::env::var_os("READ_OUTSIDE").is_some() {
            super::run_one_past();
        }
        let test = "guard::tests::a_read_outside_is_seen";
        let status = Command::new(program).arg(test).env("READ_OUTSIDE", "1").status().unwrap();
        assert_eq!(status.code(), None, "ended by a signal");
    }
}

/// Reads one number past a list that is guarded behind.
#[cfg(test)]
fn run_one_past() {
    let none = ptr::null_mut();
    let start = unsafe { mmap(none, RANGE, NO_ACCESS, PRIVATE_ANONYMOUS_UNRESERVED, -1, 0) };
    NEXT.store(start as usize, Relaxed);
    START.store(start as usize, Relaxed);
    SIDE.store(BEHIND, Relaxed);
    let list = vec![1.0f64; 3];
    SIDE.store(NEITHER, Relaxed);
    let past = unsafe { ptr::read_volatile(list.as_ptr().add(3)) };
    println!("{past}");
}
