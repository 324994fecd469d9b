//! Times one case. A round is one short batch of calls for each implementation in turn, so that whatever else the machine does meets all of them alike.

use crate::cases::Subject;
use std::time::{Duration, Instant};

/// How long a batch is meant to take at least, and twice that at most: far longer than reading the clock, far shorter than a turn of the scheduler. A
/// call that takes longer is a batch by itself.
pub const BATCH: Duration = Duration::from_micros(20);

/// A case ends after this time, on a slow machine with fewer rounds than on a quick one.
pub const BUDGET: Duration = Duration::from_millis(1500);

/// Rounds that are not counted.
const WARM_UP: usize = 20;

/// Nanoseconds for one call, by implementation and round.
pub type Times = [Vec<f64>; 3];

/// Of the subjects of one case, in the order of `implementation::ALL`.
pub fn time(subjects: &mut [Subject; 3]) -> Times {
    let start = Instant::now();
    let calls = subjects.each_mut().map(calls_in_a_batch);
    let mut times = Times::default();
    let mut rounds = 0;
    while rounds <= WARM_UP || start.elapsed() < BUDGET {
        for (i, by) in subjects.iter_mut().enumerate() {
            let taken = batch(by, calls[i]).as_nanos() as f64;
            if rounds >= WARM_UP {
                times[i].push(taken / f64::from(calls[i]));
            }
        }
        rounds += 1;
    }
    times
}

/// Doubles the number of calls until they take as long as a batch is meant to at least.
fn calls_in_a_batch(by: &mut Subject) -> u32 {
    let mut calls = 1;
    while calls < 1 << 20 && batch(by, calls) < BATCH {
        calls *= 2;
    }
    calls
}

fn batch(by: &mut Subject, calls: u32) -> Duration {
    let start = Instant::now();
    (by.repeat)(calls);
    start.elapsed()
}
