//! Times of two or three pieces of work that do the same, taken in turn.

use std::time::{Duration, Instant};

/// How long one batch takes at least, so that the clock's own step does not matter.
const BATCH: Duration = Duration::from_micros(200);

/// So many rounds; fewer, but at least the least, where they would take longer than this.
const ROUNDS: usize = 40;
const LEAST_ROUNDS: usize = 3;
const LONG: Duration = Duration::from_millis(500);

/// The nanoseconds of one call of each, at best.
///
/// The batches take turns, and the least of each counts: whatever else runs on the machine can
/// only make a batch longer, and a slow spell meets all of them.
pub fn best(work: &mut [&mut dyn FnMut()]) -> Vec<f64> {
    let counts: Vec<u32> = work
        .iter_mut()
        .map(|work| calls_in_a_batch(*work))
        .collect();
    let mut best = vec![f64::INFINITY; work.len()];
    let start = Instant::now();
    for round in 0..ROUNDS {
        if round >= LEAST_ROUNDS && start.elapsed() > LONG {
            break;
        }
        for (n, work) in work.iter_mut().enumerate() {
            let nanoseconds = batch(*work, counts[n]).as_nanos() as f64;
            best[n] = best[n].min(nanoseconds / f64::from(counts[n]));
        }
    }
    best
}

fn batch(work: &mut dyn FnMut(), calls: u32) -> Duration {
    let start = Instant::now();
    for _ in 0..calls {
        work();
    }
    start.elapsed()
}

fn calls_in_a_batch(work: &mut dyn FnMut()) -> u32 {
    let mut calls = 1;
    while batch(work, calls) < BATCH {
        calls *= 2;
    }
    calls
}
