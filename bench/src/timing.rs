//! Times of both sides.

use std::hint::black_box;
use std::time::{Duration, Instant};

/// Calls that a side makes before the other side makes the same: so each finds its own data in the cache, as in a series of calls.
pub const RUN: usize = 20;

/// The times of both sides, call for call.
#[derive(Default)]
pub struct Times {
    pub proved: Vec<Duration>,
    pub rust: Vec<Duration>,
}

impl Times {
    /// The cells of a row: both medians and their ratio.
    pub fn cells(self) -> String {
        let (proved, rust) = (median(self.proved), median(self.rust));
        format!("{proved:.1} µs | {rust:.1} µs | {:.1}", rust / proved)
    }
}

pub fn timed<T>(call: impl FnOnce() -> T) -> (T, Duration) {
    let start = Instant::now();
    let answer = black_box(call());
    (answer, start.elapsed())
}

/// The middle time, in microseconds.
pub fn median(mut times: Vec<Duration>) -> f64 {
    times.sort();
    times[times.len() / 2].as_secs_f64() * 1e6
}
