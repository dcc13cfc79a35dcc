// Octets of all kinds: frames of each link, and texts, zeros, paddings and sequences.

use shared::random::Random;

use crate::inputs::{bip, ethernet, mstp, one_in, one_of, Ask, Octets};

// What octets are taken from, so that some repeat.
const FEW: [&[u8]; 4] = [
    &[0x00, 0x41],
    &[0x00, 0x1F, 0x20, 0x7E, 0x7F],
    &[0x00, 0x01, 0xFF],
    &[0x41, 0x42, 0x80],
];

// The longest of the octets that are all tried, and what they are made of.
const WORD: u32 = 10;
const LETTERS: [u8; 3] = [0x00, 0x41, 0x7F];

// Frames of each link.
pub fn frames() -> Octets {
    let kinds = [mstp::inputs(), bip::inputs(), ethernet::inputs()];
    let fixed = kinds.into_iter().flat_map(|kind| kind.fixed).collect();
    Octets {
        fixed,
        good: frame,
        near: frame_near,
    }
}

// Frames, and octets with patterns.
pub fn patterned() -> Octets {
    let padded = [[0x00; 8].as_slice(), &[0xFF; 4]].concat();
    let sequence = [0, 1, 2, 3, 4, 5, 6, 7, 0x41, 0x41, 0x41, 0x41, 0x41].to_vec();
    let fixed = vec![vec![0x41; 5], vec![0x00; 12], padded, sequence];
    Octets {
        fixed,
        good: pattern,
        near: frame_or_pattern,
    }
}

// A good frame.
fn frame(random: &mut Random) -> Vec<u8> {
    let good = [mstp::good, bip::good, ethernet::good];
    one_of(&good, random)(random)
}

// A frame with some faults.
fn frame_near(random: &mut Random) -> Vec<u8> {
    let near = [
        mstp::inputs().near,
        bip::inputs().near,
        ethernet::inputs().near,
    ];
    one_of(&near, random)(random)
}

// A frame, at times with patterns behind it.
fn frame_or_pattern(random: &mut Random) -> Vec<u8> {
    match random.below(2) {
        0 => frame(random),
        _ => [frame(random), pattern(random)].concat(),
    }
}

// Texts, zeros, repeats and octets from few values one behind another, at times with a sequence or a
// padding.
fn pattern(random: &mut Random) -> Vec<u8> {
    let mut octets = Vec::new();
    if one_in(6, random) {
        octets.extend(0..=one_of(&[6, 7, 7, 8], random));
    }
    let pieces = 1 + random.below(5);
    for _ in 0..pieces {
        let count = random.below(12);
        match random.below(4) {
            0 => octets.extend((0..count).map(|_| 0x20 + random.below(0x5F) as u8)),
            1 => octets.extend(vec![0x00; count]),
            2 => octets.extend(vec![random.octet(); count]),
            _ => {
                let few = one_of(&FEW, random);
                octets.extend((0..count).map(|_| one_of(few, random)));
            }
        }
    }
    if one_in(3, random) {
        octets.extend(vec![random.octet(); 3 + random.below(3)]);
    }
    if octets.is_empty() {
        octets.push(random.octet());
    }
    octets
}

// All octets up to some count that are made of few values.
pub fn words(random: &mut Random, ask: Ask) {
    for count in 0..=WORD {
        for number in 0..LETTERS.len().pow(count) {
            let letter = |place| LETTERS[number / LETTERS.len().pow(place) % LETTERS.len()];
            let word: Vec<u8> = (0..count).map(letter).collect();
            ask(random, &word);
        }
    }
}
