//! How long calls take.

use std::hint::black_box;
use std::time::Instant;

pub fn milliseconds(nanoseconds: f64) -> f64 {
    nanoseconds / 1e6
}

pub fn microseconds(nanoseconds: f64) -> f64 {
    nanoseconds / 1e3
}

/// A run repeats short calls until about this many prefixes are visited, so that the clock's grain doesn't show.
const VISITED_PER_RUN: u64 = 200_000;

/// How often a run makes a call that visits so many prefixes.
pub fn calls_per_run(visited: u64) -> usize {
    (VISITED_PER_RUN / visited).max(1) as usize
}

/// Nanoseconds of a call on each of these in turn.
pub fn nanoseconds<T, A>(given: impl IntoIterator<Item = T>, mut call: impl FnMut(T) -> A) -> f64 {
    let begin = Instant::now();
    for one in given {
        black_box(call(black_box(one)));
    }
    begin.elapsed().as_nanos() as f64
}

/// The least time of each form in some runs. The forms take turns, so that all meet the same machine.
pub fn least<F: Copy, const N: usize>(runs: usize, forms: [F; N], time: impl Fn(F) -> f64) -> [f64; N] {
    let mut least = [f64::MAX; N];
    for _ in 0..runs {
        for (least, form) in least.iter_mut().zip(forms) {
            *least = least.min(time(form));
        }
    }
    least
}
