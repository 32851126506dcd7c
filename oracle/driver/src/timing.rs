//! How long a call takes.

use std::time::{Duration, Instant};

/// How long one call is timed.
const A_WHILE: Duration = Duration::from_millis(500);

/// The least time of one call in microseconds. So many are timed at once, as a clock does not see one that is short.
pub fn least(at_once: u32, mut call: impl FnMut()) -> f64 {
    let begin = Instant::now();
    let mut least = Duration::MAX;
    while begin.elapsed() < A_WHILE {
        let start = Instant::now();
        (0..at_once).for_each(|_| call());
        least = least.min(start.elapsed());
    }
    least.as_secs_f64() * 1e6 / f64::from(at_once)
}
