//! Timing calls by the processor time of this thread, which counts nothing of what else the machine does. For Linux.
#![allow(dead_code)] // each program uses its own part

use std::ffi::c_int;
use std::hint::black_box;

/// How often each call takes its turn.
pub const ROUNDS: usize = 60;

const THREAD_CPU_TIME: c_int = 3;

#[repr(C)]
struct Time {
    seconds: i64,
    nanoseconds: i64,
}

extern "C" {
    fn clock_gettime(clock: c_int, time: *mut Time) -> c_int;
}

/// Nanoseconds of processor time since the thread began.
fn now() -> f64 {
    let mut time = Time { seconds: 0, nanoseconds: 0 };
    assert_eq!(unsafe { clock_gettime(THREAD_CPU_TIME, &mut time) }, 0, "no clock");
    time.seconds as f64 * 1e9 + time.nanoseconds as f64
}

/// What a call gives, and the nanoseconds that it took.
pub fn timed<T>(call: impl FnOnce() -> T) -> (T, f64) {
    let start = now();
    let given = counted(call);
    (given, now() - start)
}

/// The call and nothing else, so that callgrind can count its instructions: it knows where by this name.
#[inline(never)]
fn counted<T>(call: impl FnOnce() -> T) -> T {
    black_box(call())
}

/// Nanoseconds for one of so many calls, each with the answer expected.
pub fn time(calls: u32, answer: u64, mut call: impl FnMut() -> u64) -> f64 {
    let (_, took) = timed(|| (0..calls).for_each(|_| assert_eq!(black_box(call()), answer)));
    took / calls as f64
}

/// A time that can be; the run ends with a message where the clock has shown none, or nothing was timed.
pub fn checked(nanoseconds: f64, of: &str) -> f64 {
    if !(nanoseconds.is_finite() && nanoseconds > 0.0) {
        eprintln!("{of} took {nanoseconds} ns by the clock, which can not be: nothing is measured");
        std::process::exit(1);
    }
    nanoseconds
}

/// The least that each gave in its turns. They take turns, so that each meets the same conditions.
pub fn best<const N: usize>(mut turns: [&mut dyn FnMut() -> f64; N]) -> [f64; N] {
    let mut best = [f64::INFINITY; N];
    for _ in 0..ROUNDS {
        for (best, turn) in best.iter_mut().zip(&mut turns) {
            *best = best.min(turn());
        }
    }
    best.map(|best| checked(best, "a call"))
}
