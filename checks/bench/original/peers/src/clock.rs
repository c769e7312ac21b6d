//! How long a row takes.

use crate::rows::Row;
use std::hint::black_box;
use std::time::{Duration, Instant};

/// How many samples are taken, of which the median counts.
const SAMPLES: usize = 9;

/// The time that a sample takes at least.
const SAMPLE: Duration = Duration::from_millis(3);

/// A sample takes at least as many times what making the channel takes.
const OF_MAKING: u32 = 4;

/// Prints the nanoseconds of one operation, without the time in which the channel is made.
pub fn print_time(row: &Row) {
    let repetitions = repetitions_of(row);
    let mut samples: Vec<Duration> = (0..SAMPLES).map(|_| sample(row, repetitions)).collect();
    samples.sort();
    let parts = (repetitions * row.operations) as f64;
    let each = samples[SAMPLES / 2].as_nanos() as f64 / parts;
    println!("{}: {each:.2} ns", row.title);
}

/// How many repetitions fill a sample.
fn repetitions_of(row: &Row) -> u64 {
    let mut repetitions = 1;
    let fills = |repetitions| {
        let least = SAMPLE.max(time_of(row, 0) * OF_MAKING);
        sample(row, repetitions) >= least
    };
    while repetitions < 1 << 40 && !fills(repetitions) {
        repetitions *= 2;
    }
    repetitions
}

/// The time of so many repetitions.
fn sample(row: &Row, repetitions: u64) -> Duration {
    let making = time_of(row, 0);
    time_of(row, repetitions).saturating_sub(making)
}

fn time_of(row: &Row, repetitions: u64) -> Duration {
    let start = Instant::now();
    black_box((row.run)(black_box(repetitions)));
    start.elapsed()
}
