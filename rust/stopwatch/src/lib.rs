//! Least times of calls, for the benchmarks: the proved code beside the reference and others, in one run.

#![forbid(unsafe_code)]

use std::hint::black_box;
use std::time::Instant;

/// Calls that are timed together.
const CALLS: u32 = 8;

/// The time of one call in nanoseconds.
pub fn time<T>(call: impl FnOnce() -> T) -> f64 {
    let start = Instant::now();
    black_box(call());
    start.elapsed().as_nanos() as f64
}

/// The time of one call in nanoseconds, by [`CALLS`] of them.
fn sample<T>(call: &mut impl FnMut() -> T) -> f64 {
    let all = time(|| {
        for _ in 0..CALLS {
            black_box(call());
        }
    });
    all / f64::from(CALLS)
}

/// The least time of one call in nanoseconds.
pub fn least<T>(rounds: usize, mut call: impl FnMut() -> T) -> f64 {
    (0..rounds).fold(f64::MAX, |best, _| best.min(sample(&mut call)))
}

/// The least time of one call in nanoseconds, of each of the two, taken in turn.
pub fn least_of_both<T, U>(rounds: usize, mut ours: impl FnMut() -> T, mut theirs: impl FnMut() -> U) -> (f64, f64) {
    (0..rounds).fold((f64::MAX, f64::MAX), |best, _| {
        (best.0.min(sample(&mut ours)), best.1.min(sample(&mut theirs)))
    })
}

/// The least time of one pass in nanoseconds, of each of the sides, taken in turn.
pub fn least_of_each<S>(passes: usize, sides: &[S], mut pass: impl FnMut(&S)) -> Vec<f64> {
    least_of_times(passes, sides, |side| time(|| pass(side)))
}

/// The least time of each of the sides, taken in turn. `timed` gives a time, by [`time`]; what it does before and after isn't counted.
pub fn least_of_times<S>(rounds: usize, sides: &[S], mut timed: impl FnMut(&S) -> f64) -> Vec<f64> {
    let mut least = vec![f64::MAX; sides.len()];
    for _ in 0..rounds {
        for (best, side) in least.iter_mut().zip(sides) {
            *best = best.min(timed(side));
        }
    }
    least
}

/// Prints the two times and their ratio.
pub fn report(name: &str, (ours, theirs): (f64, f64)) {
    report_each(name, &[("proved", ours), ("Rust", theirs)]);
}

/// Prints the times of some sides, and the ratio of the first to each of the others.
pub fn report_each(name: &str, sides: &[(&str, f64)]) {
    let (first, ours) = sides[0];
    let times = sides.iter().map(|(side, time)| format!("{side} {time:.0} ns"));
    let ratios = sides[1..]
        .iter()
        .map(|(side, time)| format!("{first}/{side} {:.2}", ours / time));
    println!("{name}: {}", times.chain(ratios).collect::<Vec<_>>().join(", "));
}

#[cfg(test)]
mod tests {
    use super::*;

    #[test]
    fn sides_in_turn_and_the_least_of_each() {
        let times = [30.0, 6.0, 10.0, 5.0, 20.0, 7.0];
        let mut asked = Vec::new();
        let least = least_of_times(3, &["ours", "theirs"], |side| {
            asked.push(*side);
            times[asked.len() - 1]
        });
        assert_eq!(least, [10.0, 5.0]);
        assert_eq!(asked, ["ours", "theirs"].repeat(3));
    }
}
