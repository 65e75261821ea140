//! The time that a command may take, by --time-limit. It is looked at between slices of a walk.

use std::sync::atomic::{AtomicUsize, Ordering};
use std::sync::OnceLock;
use std::time::{Duration, Instant};

static BEGUN: OnceLock<Instant> = OnceLock::new();
/// the first end, and one after it
static ENDS: OnceLock<[Instant; 2]> = OnceLock::new();
/// which of them counts; past both the time does not count
static WHICH: AtomicUsize = AtomicUsize::new(0);

/// What is left to do where the time is over may take as long again, and at least so long.
const LEAST: Duration = Duration::from_secs(2);

/// From now on the time counts.
pub fn begin(seconds: Option<u32>) {
    let now = *BEGUN.get_or_init(Instant::now);
    if let Some(seconds) = seconds {
        let given = Duration::from_secs(seconds as u64);
        let end = now.checked_add(given).unwrap_or(now);
        ENDS.get_or_init(|| [end, end.checked_add(given.max(LEAST)).unwrap_or(end)]);
    }
}

/// From now on the time is over at the later end: what was found is checked.
pub fn go_on() {
    WHICH.store(1, Ordering::Relaxed);
}

/// From now on the time does not count: what is left to do is short.
pub fn stop() {
    WHICH.store(2, Ordering::Relaxed);
}

/// Whether the time is over.
pub fn is_over() -> bool {
    let end = ENDS.get().and_then(|ends| ends.get(WHICH.load(Ordering::Relaxed)));
    end.is_some_and(|end| Instant::now() >= *end)
}

/// The seconds since the beginning.
pub fn seconds() -> f64 {
    BEGUN.get().map_or(0.0, |begun| begun.elapsed().as_secs_f64())
}
