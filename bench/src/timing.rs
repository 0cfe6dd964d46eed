//! Two pieces of work timed in one run, by turns, best of many.
use std::hint::black_box;
use std::time::Instant;

const ROUNDS: usize = 300;

/// How long one sample lasts at least: short, so that many of them pass without a switch to other work.
const SAMPLE: f64 = 40_000.0;

/// Nanoseconds of each for one call, where a turn makes `calls` calls.
pub fn by_turns(calls: usize, mut one: impl FnMut(), mut other: impl FnMut()) -> (f64, f64) {
    let (times_one, times_other) = (times_for(&mut one), times_for(&mut other));
    let mut best = (f64::MAX, f64::MAX);
    for _ in 0..ROUNDS {
        best.0 = best.0.min(sample(times_one, &mut one));
        best.1 = best.1.min(sample(times_other, &mut other));
    }
    (best.0 / calls as f64, best.1 / calls as f64)
}

/// So many times fill a sample.
fn times_for(work: &mut impl FnMut()) -> usize {
    let quickest = (0..5).map(|_| sample(1, work)).fold(f64::MAX, f64::min);
    1 + (SAMPLE / quickest.max(20.0)) as usize
}

/// Nanoseconds of the work, done so many times.
fn sample(times: usize, work: &mut impl FnMut()) -> f64 {
    let start = Instant::now();
    for _ in 0..times {
        black_box(&mut *work)();
    }
    start.elapsed().as_nanos() as f64 / times as f64
}
