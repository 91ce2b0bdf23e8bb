//! Times: medians over many turns, in each of which every task runs once.

use std::hint::black_box;
use std::time::Instant;

/// The milliseconds that a task takes, and what it made.
pub fn timed<T>(task: impl FnOnce() -> T) -> (f64, T) {
    let begun = Instant::now();
    let made = black_box(task());
    (begun.elapsed().as_secs_f64() * 1e3, made)
}

/// The median of each task's time, over so many turns.
pub fn medians(turns: usize, mut turn: impl FnMut() -> Vec<f64>) -> Vec<f64> {
    let all: Vec<Vec<f64>> = (0..turns).map(|_| turn()).collect();
    let median = |task: usize| {
        let mut times: Vec<f64> = all.iter().map(|turn| turn[task]).collect();
        times.sort_by(f64::total_cmp);
        times[turns / 2]
    };
    (0..all[0].len()).map(median).collect()
}

/// The milliseconds of a plain copy of these items, to a place of its own.
pub fn copy<T: Copy>(from: &[T], to: &mut [T]) -> f64 {
    let (time, ()) = timed(|| to.copy_from_slice(black_box(from)));
    black_box(to);
    time
}
