// The second table: how far one changed octet moves the numbers of the statistics.

use std::iter::repeat_with;

use ffi::{lefkanu_calculate_frame_statistics, COUNT_NUMBERS};
use random::Random;

use crate::frame::Frame;
use crate::report::{Report, SHOWN};
use crate::rule::Rule;

// How many octets random ones have at most, and each part of parted ones.
const LENGTH: usize = 64;

// How many random ones there are.
const RANDOM: usize = 400;

// What stands above the lines.
pub fn head() -> String {
    format!(
        "Statistics: each octet is changed to each other value, in the frames under one rule, in\n\
        n octets FF, one 00 and n more (n from 1 to {LENGTH}), and in {RANDOM} times\n\
        1 to {LENGTH} random octets of two or three values.\n\n\
        | number, and how far it can go | tried | moved | as far as it can go | farther |\n\
        |---|---|---|---|---|\n"
    )
}

// Tries each change of one octet.
pub fn try_all(seed: u64, sabotage: bool) -> Vec<Report> {
    let mut numbers = Number::all(sabotage);
    for octets in all_octets(seed) {
        let before = Counted::of(octets);
        let mut after = before.clone();
        for (place, octet) in before.octets.iter().enumerate() {
            for change in 1..=255 {
                after.octets[place] = octet ^ change;
                after.counts = counts(&after.octets);
                for number in &mut numbers {
                    number.count(&before, &after);
                }
            }
            after.octets[place] = *octet;
        }
    }
    numbers.iter().map(Number::report).collect()
}

// The octets that are changed. The statistics know no rule, so the frames are those of one.
fn all_octets(seed: u64) -> impl Iterator<Item = Vec<u8>> {
    let frames = Frame::all(Rule::AnnexG, seed).map(|frame| frame.octets().to_vec());
    let mut random = Random::seeded(seed);
    let random = repeat_with(move || of_few_values(&mut random)).take(RANDOM);
    frames.chain((1..=LENGTH).map(parted)).chain(random)
}

// So many octets FF, one 00, and so many more.
fn parted(count: usize) -> Vec<u8> {
    let mut octets = vec![0xFF; 2 * count + 1];
    octets[count] = 0x00;
    octets
}

// Random octets of two or three values, so that there are long runs of one.
fn of_few_values(random: &mut Random) -> Vec<u8> {
    let values = [0x00, 0xFF, random.octet()];
    let (few, count) = (2 + random.below(2), 1 + random.below(LENGTH));
    (0..count).map(|_| values[random.below(few)]).collect()
}

// What the library counts of octets, beside their distribution.
fn counts(octets: &[u8]) -> [usize; COUNT_NUMBERS] {
    let (list, length) = (octets.as_ptr(), octets.len());
    let (mut distribution, mut counts) = ([0; 256], [0; COUNT_NUMBERS]);
    let answer =
        unsafe { lefkanu_calculate_frame_statistics(list, length, &mut distribution, &mut counts) };
    assert_eq!(answer, 0, "the answer to the statistics of {length} octets");
    counts
}

// Octets and what is counted of them.
#[derive(Clone)]
struct Counted {
    octets: Vec<u8>,
    counts: [usize; COUNT_NUMBERS],
}

impl Counted {
    fn of(octets: Vec<u8>) -> Counted {
        let counts = counts(&octets);
        Counted { octets, counts }
    }
}

// A line: one number of the statistics.
struct Number {
    name: &'static str,
    // Its place in the counts.
    place: usize,
    // The most that one change can make of it; and from there, back.
    most: fn(usize) -> usize,
    tried: u64,
    moved: u64,
    // How many changes moved it as far as it can go, and how many farther.
    farthest: u64,
    wrong: u64,
    // Whether the first answer is turned: to one more than the most.
    sabotage: bool,
    shown: Vec<String>,
}

impl Number {
    // All lines, with nothing tried yet.
    fn all(sabotage: bool) -> [Number; 3] {
        let number = |name, place, most| Number {
            name,
            place,
            most,
            tried: 0,
            moved: 0,
            farthest: 0,
            wrong: 0,
            sabotage,
            shown: Vec::new(),
        };
        [
            number("zeros, by 1", 0, |n| n + 1),
            number("high octets, by 1", 1, |n| n + 1),
            number("longest run, from n to 2 n + 1 or back", 3, |n| 2 * n + 1),
        ]
    }

    // Counts a change.
    fn count(&mut self, before: &Counted, after: &Counted) {
        let [old, mut new] = [before, after].map(|counted| counted.counts[self.place]);
        if self.sabotage && self.tried == 0 {
            new = (self.most)(old) + 1;
        }
        let (low, high) = (old.min(new), old.max(new));
        let most = (self.most)(low);
        self.tried += 1;
        self.moved += u64::from(high > low);
        self.farthest += u64::from(high == most);
        self.wrong += u64::from(high > most);
        if high > most && self.shown.len() < SHOWN {
            let [before, after] = [&before.octets, &after.octets];
            let shown = format!("{old} of {before:02X?}\n{new} of {after:02X?}\n");
            self.shown.push(shown);
        }
    }

    // What it reports at the end.
    fn report(&self) -> Report {
        let Number {
            name,
            tried,
            moved,
            farthest,
            wrong,
            ..
        } = *self;
        let turned = u64::from(self.sabotage);
        let mut shown = self.shown.concat();
        if farthest == 0 {
            shown += "none went as far as it can go\n";
        }
        Report {
            name: name.to_string(),
            text: format!("| {name} | {tried} | {moved} | {farthest} | {wrong} |\n"),
            tried,
            wrong,
            turned,
            shown,
            is_well: farthest > 0 && wrong == turned,
        }
    }
}
