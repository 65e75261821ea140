//! Ctrl-C during a long walk. The first one asks the walk to stop at the end of its slice; a second one ends the program at once.

use std::sync::atomic::{AtomicBool, Ordering};

// As the C library has them. A handler is an address, or one of the two numbers.
const SIGINT: i32 = 2;
const DEFAULT: usize = 0;
const IGNORED: usize = 1;

extern "C" {
    fn signal(number: i32, handler: usize) -> usize;
    fn raise(number: i32) -> i32;
}

static ASKED: AtomicBool = AtomicBool::new(false);

extern "C" fn ask(_: i32) {
    ASKED.store(true, Ordering::Relaxed);
    unsafe { signal(SIGINT, DEFAULT) };
}

/// From now on the first Ctrl-C asks. A program that was started deaf to it, as in the background, stays so.
pub fn catch() {
    unsafe {
        if signal(SIGINT, ask as *const () as usize) == IGNORED {
            signal(SIGINT, IGNORED);
        }
    }
}

/// Whether there was a Ctrl-C.
pub fn is_asked() -> bool {
    ASKED.load(Ordering::Relaxed)
}

/// Ends the program as Ctrl-C would have, so that a shell's loop around it ends too.
pub fn end() {
    unsafe {
        signal(SIGINT, DEFAULT);
        raise(SIGINT);
    }
}
