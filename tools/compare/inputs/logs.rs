// Logs: records one behind another, and what is left of them.

use shared::model::log::{record, Time};
use shared::random::Random;

use crate::inputs::{one_in, one_of};

// Lengths of records at the borders.
pub const BORDERS: [usize; 12] = [0, 1, 2, 3, 255, 256, 257, 1512, 1513, 1514, 1515, 1516];

// Seconds at the borders, and one whose octets differ.
const SECONDS: [u32; 4] = [0, 1, 0x0102_0304, u32::MAX];

// How many octets a record has.
pub fn length(random: &mut Random) -> usize {
    match random.below(32) {
        0 => one_of(&BORDERS, random),
        1 => random.below(1600),
        _ => 1 + random.below(24),
    }
}

// A kind of record, seldom none; the octets of kinds with a time are none.
pub fn kind(random: &mut Random) -> u8 {
    match random.below(12) {
        0 => one_of(&[0, 4, 10, 11, 12, 13, 14, 255, random.octet()], random),
        _ => 1 + random.below(3) as u8,
    }
}

// A second.
pub fn second(random: &mut Random) -> u32 {
    match random.below(8) {
        0 => one_of(&SECONDS, random),
        _ => random.wide() as u32,
    }
}

// A second, or as often no time.
fn time(random: &mut Random) -> Time {
    one_in(2, random).then(|| second(random))
}

pub struct Log {
    pub octets: Vec<u8>,
    // Whether its front is cut off, and whether octets are changed.
    pub cut: bool,
    pub changed: bool,
    // An end: that of a record, one beside it, any, or one beyond the log.
    pub end: usize,
}

// Some records, with a time and without one. One log in two is cut at any place, and one in two has
// octets changed.
pub fn log(random: &mut Random) -> Log {
    let mut octets = Vec::new();
    let mut ends = vec![0];
    let count = 1 + random.below(6);
    for _ in 0..count {
        let length = length(random);
        let payload = random.octets(length);
        octets.extend(record(kind(random), time(random), &payload));
        ends.push(octets.len());
    }
    let cut = one_in(2, random);
    let torn = match cut {
        true => 1 + random.below(octets.len()),
        false => 0,
    };
    octets.drain(..torn);
    let changed = one_in(2, random) && !octets.is_empty();
    if changed {
        random.damage(&mut octets);
    }
    let end = one_of(&ends, random).saturating_sub(torn);
    let end = match random.below(5) {
        0 => end,
        1 => end + 1,
        2 => end.saturating_sub(1),
        3 => random.below(octets.len() + 4),
        _ => one_of(&[octets.len() + 1, 1 << 32, usize::MAX], random),
    };
    Log {
        octets,
        cut,
        changed,
        end,
    }
}
