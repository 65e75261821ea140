//! The memory that this process has: pages of its own, not of a file, and bytes of the heap in use. For Linux, with the GNU C library.

use std::ffi::{c_int, c_ulong};
use std::fmt;

const DISABLE_HUGE_PAGES: c_int = 41;

/// The C library's figures on the heap, in its order.
#[repr(C)]
struct HeapFigures {
    others: [usize; 4],
    in_blocks_of_their_own: usize,
    more_others: [usize; 2],
    in_use: usize,
    yet_others: [usize; 2],
}

extern "C" {
    fn malloc_trim(keep: usize) -> c_int;
    fn mallinfo2() -> HeapFigures;
    fn prctl(option: c_int, on: c_ulong, unused: c_ulong, unused_too: c_ulong, and_unused: c_ulong) -> c_int;
}

/// Gives back what the heap has free, so that what is taken afterwards shows; and asks the system not to join pages, which would show too.
pub fn settle() {
    unsafe {
        malloc_trim(0);
        assert_eq!(prctl(DISABLE_HUGE_PAGES, 1, 0, 0, 0), 0, "a call of the system");
    }
}

#[derive(Clone, Copy)]
pub struct Footprint {
    /// kB of pages, also of those that are swapped out
    pages: u64,
    /// bytes
    heap: usize,
}

impl Footprint {
    pub fn now() -> Footprint {
        let figures = std::fs::read_to_string("/proc/self/smaps_rollup").expect("the system's figures on this process");
        let of = |name: &str| -> u64 {
            let line = figures.lines().find(|line| line.starts_with(name)).expect("a line of the system's figures");
            line.split_whitespace().nth(1).and_then(|word| word.parse().ok()).expect("a number of kB")
        };
        let pages = of("Anonymous:") + of("Swap:");
        drop(figures);
        let heap = unsafe { mallinfo2() };
        Footprint { pages, heap: heap.in_use + heap.in_blocks_of_their_own }
    }

    pub fn is_larger_than(&self, other: &Footprint) -> bool {
        self.pages > other.pages || self.heap > other.heap
    }
}

impl fmt::Display for Footprint {
    fn fmt(&self, to: &mut fmt::Formatter) -> fmt::Result {
        write!(to, "{} kB of pages and {} bytes of heap", self.pages, self.heap)
    }
}
