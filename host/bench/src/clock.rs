//! Measuring: many runs of the same work from the same start.

use std::hint::black_box;
use std::time::{Duration, Instant};

use cases::Lent;

/// Fewest and most runs of one measurement.
const FEWEST_RUNS: usize = 15;
const MOST_RUNS: usize = 2000;
/// One copy of a small image is too short for the clock; so many are timed.
const COPIES_AT_ONCE: u32 = 64;

/// What many runs took; in microseconds, unless another unit is told.
#[derive(Clone, Copy, Debug, PartialEq)]
pub struct Times {
    pub median: f64,
    pub lowest: f64,
}

impl Times {
    /// Of at least one run, in the same unit.
    pub fn of(mut runs: Vec<f64>) -> Times {
        runs.sort_by(f64::total_cmp);
        let at = |place: usize| runs.get(place).copied().unwrap_or(f64::NAN);
        Times { median: at(runs.len() / 2), lowest: at(0) }
    }
}

/// Runs two works in turn, each on a fresh copy of its start, as often as the
/// budget allows; so both meet the same load. Making the copies is not
/// measured.
pub fn measure<T, U>(
    (start, mut one): (&Lent, impl FnMut(&mut Lent) -> T),
    (other_start, mut other): (&Lent, impl FnMut(&mut Lent) -> U),
    budget: Duration,
) -> (Times, Times) {
    let mut lent = start.clone();
    let (first, second) = repeat(budget, || {
        let first = time(&mut lent, start, &mut one);
        (first, time(&mut lent, other_start, &mut other))
    })
    .into_iter()
    .unzip();
    (Times::of(first), Times::of(second))
}

/// One run on a fresh copy of the start, in the same place in memory.
fn time<T>(lent: &mut Lent, start: &Lent, work: &mut impl FnMut(&mut Lent) -> T) -> f64 {
    lent.image.clone_from(&start.image);
    lent.pool.clone_from(&start.pool);
    let before = Instant::now();
    black_box(work(black_box(lent)));
    microseconds_since(before)
}

/// One copy of an image, or of a pool, of so many bytes.
pub fn measure_copy(length: usize, budget: Duration) -> Times {
    let start = vec![0xA5_u8; length];
    let mut image = vec![0_u8; length];
    let runs = repeat(budget, || {
        let before = Instant::now();
        for _ in 0..COPIES_AT_ONCE {
            black_box(&mut image).copy_from_slice(black_box(&start));
        }
        microseconds_since(before) / f64::from(COPIES_AT_ONCE)
    });
    Times::of(runs)
}

fn microseconds_since(before: Instant) -> f64 {
    before.elapsed().as_secs_f64() * 1e6
}

/// What each run gives, as often as the budget allows.
pub fn repeat<T>(budget: Duration, mut run: impl FnMut() -> T) -> Vec<T> {
    let begun = Instant::now();
    let mut given = Vec::new();
    // The first run fills the caches and is not counted.
    run();
    while given.len() < FEWEST_RUNS || (given.len() < MOST_RUNS && begun.elapsed() < budget) {
        given.push(run());
    }
    given
}

#[cfg(test)]
mod tests {
    use super::*;

    #[test]
    fn median_and_lowest() {
        let times = Times::of(vec![3.0, 1.0, 2.0, 9.0, 2.5]);
        assert_eq!(times, Times { median: 2.5, lowest: 1.0 });
    }

    #[test]
    fn every_run_starts_alike() {
        let (mut runs, mut others) = (0, 0);
        let lent = |image: &[u8], pool: &[u8]| Lent { image: image.to_vec(), pool: pool.to_vec() };
        let (start, other_start) = (lent(&[7; 4], &[8; 2]), lent(&[7; 3], &[]));
        let one = |given: &mut Lent| {
            assert_eq!(*given, lent(&[7; 4], &[8; 2]));
            given.image.fill(1);
            given.pool.fill(1);
            runs += 1;
        };
        let other = |given: &mut Lent| {
            assert_eq!(*given, lent(&[7; 3], &[]));
            others += 1;
        };
        measure((&start, one), (&other_start, other), Duration::ZERO);
        assert_eq!((runs, others), (FEWEST_RUNS + 1, FEWEST_RUNS + 1));
    }
}
