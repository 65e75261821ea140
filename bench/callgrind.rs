//! Counting instructions by callgrind.

use std::env::current_exe;
use std::process::Command;
use std::sync::atomic::{AtomicUsize, Ordering};
use std::thread::{available_parallelism, scope};

/// The instructions that this program, run anew with each of these lists of arguments, executes within `timing::counted`. As many runs go
/// on together as the machine has processors: a count does not change by that.
pub fn count_each(runs: &[Vec<&str>]) -> Vec<u64> {
    let next = AtomicUsize::new(0);
    let take = || std::iter::from_fn(|| runs.get(next.fetch_add(1, Ordering::Relaxed)).map(|run| (run, count(run)))).collect::<Vec<_>>();
    let taken: Vec<(&Vec<&str>, u64)> = scope(|scope| {
        let threads: Vec<_> = (0..available_parallelism().map_or(1, usize::from)).map(|_| scope.spawn(take)).collect();
        threads.into_iter().flat_map(|thread| thread.join().expect("a count")).collect()
    });
    runs.iter().map(|run| taken.iter().find(|(other, _)| std::ptr::eq(*other, run)).expect("each has its count").1).collect()
}

/// Callgrind counts each byte of a `rep stosb` as an instruction, and each of a `rep movsb`: zeroing 64 KB would be more than all else a
/// small ticket takes. The C library is told to use neither, and stores 32 bytes by an instruction.
const NO_REP: &str = "glibc.cpu.x86_rep_stosb_threshold=1000000000:glibc.cpu.x86_rep_movsb_threshold=1000000000";

fn count(arguments: &[&str]) -> u64 {
    let program = current_exe().expect("this program");
    let ran = Command::new("valgrind")
        .env("GLIBC_TUNABLES", NO_REP)
        .args(["--tool=callgrind", "--toggle-collect=*timing*counted*", "--callgrind-out-file=/dev/null"])
        .arg(program)
        .args(arguments)
        .output()
        .expect("valgrind runs");
    let said = String::from_utf8_lossy(&ran.stderr);
    assert!(ran.status.success(), "{arguments:?} failed: {said}");
    let collected = said.lines().find_map(|line| line.split_once("Collected : ")).expect("a line with the count").1;
    let count = collected.trim().parse().expect("a count");
    assert!(count > 0, "{arguments:?}: nothing was counted");
    count
}
