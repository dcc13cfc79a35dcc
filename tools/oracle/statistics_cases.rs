// The cases of statistics, and octets with long repeats for the layers above.

use shared::octets::{of_size, then};
use shared::random::Random;

use crate::analysis_list::statistics;
use crate::list::List;

// Alphabets of few octets, with the borders of text and of high octets.
const ALPHABETS: [&[u8]; 6] = [
    &[0x00],
    &[0x00, 0xFF],
    &[0x00, 0x41, 0x80],
    &[0x1F, 0x20, 0x7E, 0x7F],
    &[0x7F, 0x80, 0xFE, 0xFF],
    &[0x00, 0x01, 0x20, 0x7E, 0x80],
];

// Counts of octets around the limit, with zeros at the end.
pub const LONG: [usize; 5] = [2_001, 65_534, 65_535, 65_536, 65_537];

// Adds them all.
pub fn cases(list: &mut List, random: &mut Random) {
    few_octets(list);
    three_runs(list);
    long_runs(list);
    all_values(list);
    long_inputs(list);
    random_octets(list, random);
}

// So many of an octet, one run behind another.
pub fn runs(runs: &[(u8, usize)]) -> Vec<u8> {
    let octets = runs.iter().map(|(octet, count)| vec![*octet; *count]);
    octets.collect::<Vec<_>>().concat()
}

// No octet, one and two.
fn few_octets(list: &mut List) {
    statistics(list, &[]);
    let borders = [0x00, 0x01, 0x7F, 0x80, 0x81, 0xFF];
    for first in borders {
        statistics(list, &[first]);
        for second in borders {
            statistics(list, &[first, second]);
        }
    }
}

// Three runs of 1 to 3 octets: the longest in front, in the middle or at the end, and equals.
fn three_runs(list: &mut List) {
    for octets in [[0x41, 0x00, 0x41], [0x00, 0xFF, 0x80], [0x7F, 0x80, 0x00]] {
        for number in 0..27 {
            let counts = [1 + number / 9, 1 + number / 3 % 3, 1 + number % 3];
            let three: Vec<(u8, usize)> = octets.into_iter().zip(counts).collect();
            statistics(list, &runs(&three));
        }
    }
}

// Counts of more than one octet can say, and two runs that are equal or not by one.
fn long_runs(list: &mut List) {
    for count in [254, 255, 256, 257] {
        statistics(list, &vec![0x55; count]);
        statistics(list, &runs(&[(0x90, 256), (0x00, count)]));
    }
    for count in [511, 512, 513] {
        statistics(
            list,
            &runs(&[(0x20, count), (0x21, 1), (0x20, 513 - count)]),
        );
    }
}

// All 256 values: up, down, by threes, and some of them twice.
fn all_values(list: &mut List) {
    let up: Vec<u8> = (0..=255).collect();
    let down: Vec<u8> = (0..=255).rev().collect();
    let by_threes: Vec<u8> = (0..=255).map(|value: u8| value.wrapping_mul(3)).collect();
    for octets in [&up, &down, &by_threes, &then(&up, &down)] {
        statistics(list, octets);
    }
    statistics(list, &then(&up, &up[0xF0..]));
}

// Many zeros, alone and behind some octets.
fn long_inputs(list: &mut List) {
    for front in [&[][..], &[0x01], &[0x00, 0xFF, 0xFF], &[0x80; 300]] {
        for size in LONG {
            statistics(list, &of_size(front, size));
        }
    }
}

// Random octets from small alphabets with long repeats, and random ones without.
fn random_octets(list: &mut List, random: &mut Random) {
    for _ in 0..200 {
        statistics(list, &repeats(random));
    }
    for _ in 0..20 {
        statistics(list, &random.fewer(41));
    }
}

// Up to nine runs of up to nine octets from a small alphabet.
pub fn repeats(random: &mut Random) -> Vec<u8> {
    let alphabet = ALPHABETS[random.below(ALPHABETS.len())];
    let mut octets = Vec::new();
    for _ in 0..random.below(10) {
        let octet = alphabet[random.below(alphabet.len())];
        octets.extend(vec![octet; 1 + random.below(9)]);
    }
    octets
}
