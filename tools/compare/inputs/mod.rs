// The inputs of all layers: octets made from good ones.

pub mod any;
pub mod bip;
pub mod damaged;
pub mod ethernet;
pub mod logs;
pub mod mstp;
pub mod runs;
pub mod states;

use shared::octets::{then, with, with_each};
use shared::random::Random;

// Counts of octets around document 01's limits.
const LENGTHS: [usize; 31] = [
    3, 4, 5, 6, 7, 8, 9, 10, 11, 13, 14, 15, 16, 17, 18, 59, 60, 61, 500, 501, 502, 509, 510, 511,
    512, 1496, 1497, 1498, 1513, 1514, 1515,
];
pub const LONGEST: [usize; 4] = [65_534, 65_535, 65_536, 65_537];

// How many inputs there are of each of these counts.
const OF_EACH: usize = 200;
const OF_LONGEST: usize = 12;

// How often each number is tried that names no rule and no form.
const UNNAMED: usize = 8;

// What two octets at once are set to; the last two turn a bit.
const VALUES: [u8; 5] = [0x00, 0x55, 0x81, 0xFE, 0xFF];
const TURNED: [u8; 2] = [0x01, 0x80];

// Makes octets.
pub type Make = fn(&mut Random) -> Vec<u8>;

// Takes an input.
pub type Ask<'a> = &'a mut dyn FnMut(&mut Random, &[u8]);

// Takes an input and a number that names a rule or a form, or none.
pub type AskUnder<'a> = &'a mut dyn FnMut(&mut Random, u8, &[u8]);

// What inputs of one kind are made from.
pub struct Octets {
    // Short ones, most of them good; every octet of them is changed.
    pub fixed: Vec<Vec<u8>>,
    // A good one.
    pub good: Make,
    // One with some faults.
    pub near: Make,
}

impl Octets {
    // Asks so many inputs, or some more: first those that every run has, then random ones.
    pub fn each(&self, count: usize, random: &mut Random, ask: Ask) {
        let mut asked = 0;
        let mut counted = |random: &mut Random, octets: &[u8]| {
            asked += 1;
            ask(random, octets);
        };
        short(random, &mut counted);
        for fixed in &self.fixed {
            changed(fixed, random, &mut counted);
        }
        self.around_limits(random, &mut counted);
        while asked < count {
            let octets = self.one(random);
            asked += 1;
            ask(random, &octets);
        }
    }

    // Asks so many inputs under both rules, and some under each number that names none.
    pub fn under_rules(&self, count: usize, random: &mut Random, ask: AskUnder) {
        self.each(count, random, &mut |random, octets| {
            both(random, octets, ask)
        });
        self.unnamed(random, ask);
    }

    // Asks some inputs under each number that names no rule and no form.
    pub fn unnamed(&self, random: &mut Random, ask: AskUnder) {
        for rule in 2..=255 {
            for _ in 0..UNNAMED {
                let octets = self.one(random);
                ask(random, rule, &octets);
            }
        }
    }

    // A random one: good, damaged, with faults, or octets that are good only by chance.
    pub fn one(&self, random: &mut Random) -> Vec<u8> {
        match random.below(8) {
            0 | 1 => (self.good)(random),
            2..=4 => self.damaged(random),
            5 | 6 => (self.near)(random),
            _ => random.fewer(80),
        }
    }

    // A good one with octets changed, cut, lengthened, or with another one's end.
    fn damaged(&self, random: &mut Random) -> Vec<u8> {
        let mut octets = (self.good)(random);
        match random.below(6) {
            0..=2 => random.damage(&mut octets),
            3 => octets.truncate(random.below(octets.len())),
            4 => {
                let more = 1 + random.below(4);
                octets.extend(random.octets(more));
            }
            _ => {
                let end = (self.good)(random);
                octets.truncate(random.below(octets.len()));
                octets.extend(&end[random.below(end.len())..]);
            }
        }
        octets
    }

    // Inputs of every count around a limit: random ones, and good ones cut or lengthened.
    fn around_limits(&self, random: &mut Random, ask: Ask) {
        let each = LENGTHS.map(|length| (length, OF_EACH)).into_iter();
        let longest = LONGEST.map(|length| (length, OF_LONGEST));
        for (length, times) in each.chain(longest) {
            for _ in 0..times {
                let octets = random.octets(length);
                ask(random, &octets);
                let mut octets = (self.good)(random);
                octets.truncate(length);
                octets.extend(random.octets(length - octets.len()));
                ask(random, &octets);
            }
        }
    }
}

// Asks about some octets under both rules.
pub fn both(random: &mut Random, octets: &[u8], ask: AskUnder) {
    for rule in 0..2 {
        ask(random, rule, octets);
    }
}

// All of no, one and two octets.
pub fn short(random: &mut Random, ask: Ask) {
    ask(random, &[]);
    for first in 0..=255 {
        ask(random, &[first]);
        for second in 0..=255 {
            ask(random, &[first, second]);
        }
    }
}

// Some octets as they are; each front of them; with more behind them; with each value at each place,
// and some at each two places.
pub fn changed(fixed: &[u8], random: &mut Random, ask: Ask) {
    for count in 0..=fixed.len() {
        ask(random, &fixed[..count]);
    }
    for more in 1..=16 {
        let more = random.octets(more);
        ask(random, &then(fixed, &more));
    }
    for octets in with_each(fixed, 0..fixed.len()) {
        ask(random, &octets);
    }
    for first in 0..fixed.len() {
        for one in values(fixed[first]) {
            let octets = with(fixed, first, one);
            for second in first + 1..fixed.len() {
                for two in values(fixed[second]) {
                    ask(random, &with(&octets, second, two));
                }
            }
        }
    }
}

// What an octet is set to, with another one.
fn values(octet: u8) -> impl Iterator<Item = u8> {
    let turned = TURNED.map(|bits| octet ^ bits);
    VALUES.into_iter().chain(turned)
}

// Whether it is one time in so many.
pub fn one_in(times: usize, random: &mut Random) -> bool {
    random.below(times) == 0
}

// One of some things.
pub fn one_of<T: Copy>(things: &[T], random: &mut Random) -> T {
    things[random.below(things.len())]
}
