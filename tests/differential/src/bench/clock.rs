//! How long calls take.

use crate::calls::Call;
use std::time::{Duration, Instant};

pub const ROUNDS: usize = 21;

/// What one round of one call takes, so that the clock's own steps don't count.
const ROUND: Duration = Duration::from_millis(8);

/// Nanoseconds for each of the calls, all of them in each round.
pub fn medians(calls: &mut [Call]) -> Vec<f64> {
    let times: Vec<u32> = calls.iter_mut().map(times_for_a_round).collect();
    let mut rounds = vec![Vec::new(); calls.len()];
    for _ in 0..ROUNDS {
        for ((call, times), costs) in calls.iter_mut().zip(&times).zip(&mut rounds) {
            costs.push(cost(call, *times));
        }
    }
    let median = |mut costs: Vec<f64>| {
        costs.sort_by(f64::total_cmp);
        costs[ROUNDS / 2]
    };
    rounds.into_iter().map(median).collect()
}

fn times_for_a_round(call: &mut Call) -> u32 {
    let mut times = 1;
    while cost(call, times) * f64::from(times) < nanoseconds(ROUND) {
        times *= 2;
    }
    times
}

/// Nanoseconds for one of so many calls.
fn cost(call: &mut Call, times: u32) -> f64 {
    let start = Instant::now();
    for _ in 0..times {
        (call.make)();
    }
    nanoseconds(start.elapsed()) / f64::from(times)
}

fn nanoseconds(duration: Duration) -> f64 {
    1e9 * duration.as_secs_f64()
}
