//! How calls are timed, for the programs that time the engine: several calls in one run, in turn, repetition by
//! repetition, and the medians of their times and of the ratios.

use std::time::Instant;

/// How long the calls of one repetition take together, about: long beside reading the clock, and so short that most
/// repetitions are not interrupted.
const SAMPLE_NANOSECONDS: usize = 200_000;

/// For each of the calls how many nanoseconds it takes, once for each repetition.
pub fn time<const N: usize>(repetitions: usize, calls: [&dyn Fn(); N]) -> [Vec<f64>; N] {
    time_each(repetitions, calls.map(count), calls)
}

/// The same with so many of each call in a repetition; a repetition times the calls in turn.
pub fn time_each<const N: usize>(repetitions: usize, counts: [usize; N], calls: [&dyn Fn(); N]) -> [Vec<f64>; N] {
    let mut times: [Vec<f64>; N] = std::array::from_fn(|_| Vec::new());
    for _ in 0..repetitions {
        for ((call, count), times) in calls.iter().zip(counts).zip(&mut times) {
            times.push(sample(count, call));
        }
    }
    times
}

/// As `time`, for two calls whose times are close: there are as many of both, and each is the first of a repetition in
/// turn, so that what it costs to come first, or after the other, falls on both.
pub fn time_two(repetitions: usize, calls: [&dyn Fn(); 2]) -> [Vec<f64>; 2] {
    // The higher of the two: a call that is interrupted while it is counted is counted too low.
    let count = calls.map(count).into_iter().fold(1, usize::max);
    let mut times = [Vec::new(), Vec::new()];
    for repetition in 0..repetitions {
        let first = repetition % 2;
        for which in [first, 1 - first] {
            times[which].push(sample(count, calls[which]));
        }
    }
    times
}

/// How many of these calls make up a repetition.
fn count(call: &dyn Fn()) -> usize {
    const TRIED: usize = 64;
    let start = Instant::now();
    (0..TRIED).for_each(|_| call());
    (TRIED * SAMPLE_NANOSECONDS / start.elapsed().as_nanos().max(1) as usize).max(1)
}

/// How many nanoseconds one of so many calls takes.
fn sample(count: usize, call: &dyn Fn()) -> f64 {
    let start = Instant::now();
    (0..count).for_each(|_| call());
    start.elapsed().as_nanos() as f64 / count as f64
}

pub fn median(mut numbers: Vec<f64>) -> f64 {
    numbers.sort_by(f64::total_cmp);
    numbers[numbers.len() / 2]
}

/// The median of the ratios of each repetition, so that a slow moment falls on both.
pub fn median_ratio(ones: &[f64], others: &[f64]) -> f64 {
    median(ones.iter().zip(others).map(|(one, other)| one / other).collect())
}
