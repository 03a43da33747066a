//! Times of calls: many short rounds, and their medians.

use std::hint::black_box;
use std::time::{Duration, Instant};

use crate::jobs::{Buffers, Job};
use crate::program::Program;

/// About how long a round takes: mostly shorter than the machine lets another
/// process wait.
const ROUND: Duration = Duration::from_micros(200);
/// Calls in a round at most.
const MOST_CALLS: u32 = 10_000;

/// The median nanoseconds a call, for each job and the program that does it.
/// Their rounds take turns, so that all meet the same weather on the machine.
pub fn medians(runs: &[(&Job, &dyn Program)], rounds: usize) -> Vec<f64> {
    let mut buffers = Buffers::fresh();
    let lengths: Vec<u32> = runs
        .iter()
        .map(|(job, program)| calls_a_round(job, *program, &mut buffers))
        .collect();
    let mut times = vec![Vec::with_capacity(rounds); runs.len()];
    for _ in 0..rounds {
        for (place, (job, program)) in runs.iter().enumerate() {
            let time = round(job, *program, &mut buffers, lengths[place]);
            times[place].push(time.as_nanos() as f64 / f64::from(lengths[place]));
        }
    }
    times.into_iter().map(median).collect()
}

/// How many calls take about a round; the first warms up.
fn calls_a_round(job: &Job, program: &dyn Program, buffers: &mut Buffers) -> u32 {
    round(job, program, buffers, 1);
    let one = round(job, program, buffers, 1).as_nanos().max(1);
    let fitting = (ROUND.as_nanos() / one) as u32;
    fitting.clamp(1, MOST_CALLS)
}

fn round(job: &Job, program: &dyn Program, buffers: &mut Buffers, length: u32) -> Duration {
    let start = Instant::now();
    for _ in 0..length {
        black_box(job.run(black_box(program), buffers));
    }
    start.elapsed()
}

fn median(mut times: Vec<f64>) -> f64 {
    times.sort_by(f64::total_cmp);
    times[times.len() / 2]
}
