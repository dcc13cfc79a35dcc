// Numbers that are a state of the padding search, and numbers that are none.

use shared::random::Random;

use crate::inputs::one_of;

// The highest count.
const MOST: usize = usize::MAX;

// Each of the three numbers at its borders, and beyond them with low bits that are within.
const CAME: [usize; 5] = [0, 1, 2, 1 << 32, MOST];
const LAST: [usize; 6] = [0, 0x41, 255, 256, 0x141, MOST];
const RUN: [usize; 11] = [0, 1, 2, 3, 4, 5, 255, 65_535, 1 << 32, MOST - 1, MOST];

// Takes three numbers.
pub type AskOf<'a> = &'a mut dyn FnMut(&mut Random, [usize; 3]);

// Asks about all numbers at the borders, then about so many random ones.
pub fn each(count: usize, random: &mut Random, ask: AskOf) {
    for came in CAME {
        for last in LAST {
            for run in RUN {
                ask(random, [came, last, run]);
            }
        }
    }
    for _ in 0..count {
        let numbers = numbers(random);
        ask(random, numbers);
    }
}

// Three numbers, each small, at a border, or any.
fn numbers(random: &mut Random) -> [usize; 3] {
    [(&CAME[..], 2), (&LAST, 256), (&RUN, 100)].map(|(borders, small)| match random.below(16) {
        0 => one_of(borders, random),
        1 => random.wide() as usize,
        _ => random.below(small),
    })
}
