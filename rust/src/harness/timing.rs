//! The times of the library and of plain Rust on the same data.

use std::hint::black_box;
use std::time::{Duration, Instant};

pub fn timed<T>(run: impl FnOnce() -> T) -> (Duration, T) {
    let start = Instant::now();
    let answer = black_box(run());
    (start.elapsed(), answer)
}

/// The best times of both; their rounds take turns, so that other load on the machine meets both
/// alike.
pub fn best(rounds: usize, round: impl FnMut() -> [Duration; 2]) -> [Duration; 2] {
    std::iter::repeat_with(round)
        .take(rounds)
        .reduce(|best, times| [best[0].min(times[0]), best[1].min(times[1])])
        .expect("there are rounds")
}

/// MB/s of both.
pub fn speeds(bytes: usize, times: [Duration; 2]) -> [f64; 2] {
    times.map(|time| bytes as f64 / 1e6 / time.as_secs_f64())
}
