//! The time of a call, by many short rounds in which all jobs take turns, so that what else runs on the machine falls into few of them
//! and hits all jobs alike.
use std::time::Instant;

/// Microseconds a call.
#[derive(Clone, Copy)]
pub struct Times {
    pub best: f64,
    pub median: f64,
}

const ROUNDS: usize = 401;
/// What one job takes in a round, in microseconds, unless a single call takes longer.
const BATCH: f64 = 120.0;
/// What a job may take in all rounds together; one with long calls has fewer rounds, but not below these.
const MOST: f64 = 1e6;
const LEAST_ROUNDS: usize = 7;

/// A job with the number of its calls in a round, and the rounds in which it has its turn: every so many.
struct Turn<'a> {
    job: &'a mut dyn FnMut(),
    calls: usize,
    every: usize,
    times: Vec<f64>,
}

fn time(job: &mut dyn FnMut(), calls: usize) -> f64 {
    let start = Instant::now();
    for _ in 0..calls {
        job();
    }
    start.elapsed().as_nanos() as f64 / 1e3 / calls as f64
}

fn planned(job: &mut dyn FnMut()) -> Turn<'_> {
    job();
    let once = time(job, 1).min(time(job, 3));
    let calls = 1 + (BATCH / once) as usize;
    let rounds = ((MOST / (once * (calls + 1) as f64)) as usize).clamp(LEAST_ROUNDS, ROUNDS);
    Turn { job, calls, every: ROUNDS / rounds, times: Vec::new() }
}

/// The times of each job. Each batch has one call before it that is not timed, so that its code and data are in the caches.
pub fn measure(jobs: &mut [Box<dyn FnMut() + '_>]) -> Vec<Times> {
    let mut turns: Vec<Turn> = jobs.iter_mut().map(|job| planned(job)).collect();
    for round in 0..ROUNDS {
        for turn in turns.iter_mut().filter(|turn| round % turn.every == 0) {
            (turn.job)();
            turn.times.push(time(turn.job, turn.calls));
        }
    }
    let sorted = |turn: &mut Turn| {
        turn.times.sort_by(f64::total_cmp);
        Times { best: turn.times[0], median: turn.times[turn.times.len() / 2] }
    };
    turns.iter_mut().map(sorted).collect()
}
