//! The clock: the best of several measurements, the works taking turns.

use std::time::{Duration, Instant};

/// Something to time, one round of it.
pub type Work<'a> = Box<dyn FnMut() + 'a>;

/// Shortest measurement that counts.
const LEAST_TIME: Duration = Duration::from_millis(20);
/// Measurements of each work.
const REPETITIONS: usize = 9;

/// How long so many rounds take.
fn measure(work: &mut Work, rounds: u32) -> Duration {
    let start = Instant::now();
    for _ in 0..rounds {
        work();
    }
    start.elapsed()
}

/// Rounds that make a measurement long enough.
fn rounds_needed(work: &mut Work, least_rounds: u32) -> u32 {
    let mut rounds = least_rounds;
    while measure(work, rounds) < LEAST_TIME {
        rounds *= 2;
    }
    rounds
}

/// Nanoseconds that one round of each work takes at best.
pub fn best(works: &mut [Work], least_rounds: u32) -> Vec<f64> {
    let rounds: Vec<u32> = works.iter_mut().map(|work| rounds_needed(work, least_rounds)).collect();
    let mut best = vec![f64::INFINITY; works.len()];
    for _ in 0..REPETITIONS {
        for ((work, &rounds), best) in works.iter_mut().zip(&rounds).zip(&mut best) {
            let time = measure(work, rounds).as_nanos() as f64 / f64::from(rounds);
            *best = best.min(time);
        }
    }
    best
}
