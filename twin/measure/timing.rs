// What the measuring programs share: a time, a median, and a value that is kept.

use std::hint::black_box;
use std::time::Instant;

pub fn seconds(work: impl FnOnce()) -> f64 {
    let began = Instant::now();
    work();
    began.elapsed().as_secs_f64()
}

/// Keeps the compiler from leaving out the work that made a value.
pub fn keep<T>(value: T) {
    let _ = black_box(value);
}

pub fn median(mut times: Vec<f64>) -> f64 {
    times.sort_by(f64::total_cmp);
    times[times.len() / 2]
}
