// Measuring a row: samples of many calls, the two sides in turns.

use std::time::Instant;

use crate::row::{Calls, Row};

// How often each side is measured, and how long a sample takes at least, in nanoseconds.
pub const SAMPLES: usize = 41;
const LEAST: f64 = 200_000.0;

// The middle of some measurements, and the quarters below and above it.
pub struct Spread {
    pub median: f64,
    low: f64,
    high: f64,
}

impl Spread {
    fn of(mut values: Vec<f64>) -> Spread {
        values.sort_by(f64::total_cmp);
        let at = |part: usize| values[(values.len() - 1) * part / 4];
        Spread {
            median: at(2),
            low: at(1),
            high: at(3),
        }
    }

    // With so many decimals, in a unit.
    pub fn told(&self, decimals: usize, unit: f64) -> String {
        let [median, low, high] = [self.median, self.low, self.high].map(|value| value / unit);
        format!("{median:.decimals$} ({low:.decimals$} to {high:.decimals$})")
    }
}

// What both sides take for a call, in nanoseconds, and how often the Rust's time ours is: that of each
// sample of ours with the Rust's behind it.
pub struct Measured {
    pub ours: Spread,
    pub theirs: Option<(Spread, Spread)>,
}

// The nanoseconds of one of so many calls.
fn time(calls: &Calls, count: usize) -> f64 {
    let start = Instant::now();
    calls(count);
    start.elapsed().as_nanos() as f64 / count as f64
}

// How many calls a sample has. Finding it out warms the caches up.
fn calls_of_a_sample(calls: &Calls) -> usize {
    let mut count = 1;
    while time(calls, count) * (count as f64) < LEAST {
        count *= 2;
    }
    count
}

pub fn measure(row: &Row) -> Measured {
    let count = calls_of_a_sample(&row.ours);
    let Some(theirs) = &row.theirs else {
        let samples = (0..SAMPLES).map(|_| time(&row.ours, count));
        return Measured {
            ours: Spread::of(samples.collect()),
            theirs: None,
        };
    };
    let count = count.max(calls_of_a_sample(theirs));
    let pairs = (0..SAMPLES).map(|_| (time(&row.ours, count), time(theirs, count)));
    let (ours, theirs): (Vec<f64>, Vec<f64>) = pairs.unzip();
    let ratios = ours.iter().zip(&theirs).map(|(ours, theirs)| ours / theirs);
    let ratios = Spread::of(ratios.collect());
    Measured {
        ours: Spread::of(ours),
        theirs: Some((Spread::of(theirs), ratios)),
    }
}
