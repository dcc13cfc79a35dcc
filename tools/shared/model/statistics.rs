// The statistics of octets: counts as counts, the longest run as the first of the longest parts of
// equal octets. The Rust's entropy is left behind.

use crate::model::questions::at_most;

// How often each octet value is there, how many zeros, how many octets of 80 or more, and the longest
// run's octet and length, and where it starts.
#[derive(Clone, Debug, PartialEq)]
pub struct Statistics {
    pub counts: Vec<usize>,
    pub zeros: usize,
    pub high: usize,
    pub longest: (u8, usize),
    pub start: usize,
}

// Where so many of an octet first stand in a row.
pub fn first_place(octets: &[u8], (octet, length): (u8, usize)) -> usize {
    let runs = octets.split(|other| *other != octet);
    let before = runs.take_while(|run| run.len() < length);
    before.map(|run| run.len() + 1).sum()
}

impl Statistics {
    // The statistics of some octets; those of no octets are all 0.
    pub fn of(octets: &[u8]) -> Statistics {
        let count = |test: &dyn Fn(u8) -> bool| octets.iter().filter(|octet| test(**octet)).count();
        let runs = octets.chunk_by(|octet, next| octet == next).rev();
        let longest = runs.max_by_key(|run| run.len());
        let longest = longest.map_or((0, 0), |run| (run[0], run.len()));
        Statistics {
            counts: (0..=255)
                .map(|value| count(&|octet| octet == value))
                .collect(),
            zeros: count(&|octet| octet == 0),
            high: count(&|octet| octet >= 0x80),
            longest,
            start: first_place(octets, longest),
        }
    }

    // The five numbers that stand in lent memory beside the distribution.
    pub fn numbers(&self) -> [usize; 5] {
        let (octet, length) = self.longest;
        [self.zeros, self.high, octet.into(), length, self.start]
    }
}

// The statistics, if question 31 allows.
pub fn count(octets: &[u8]) -> Result<Statistics, u8> {
    at_most(octets)?;
    Ok(Statistics::of(octets))
}
