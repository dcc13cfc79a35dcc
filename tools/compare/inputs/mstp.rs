// MS/TP frames, good and with faults.

use shared::model::checks::Checks;
use shared::model::mstp::written;
use shared::random::Random;

use crate::check::Rule;
use crate::inputs::{both, one_in, one_of, AskUnder, Octets};

// Data lengths around the limits, and beyond them.
const LENGTHS: [usize; 13] = [
    255, 256, 257, 499, 500, 501, 502, 503, 509, 510, 511, 512, 513,
];
const LONG: [usize; 6] = [1000, 1514, 2000, 65_525, 65_526, 65_535];

// The first and the last address of masters and of slaves, and that of all stations.
const BORDERS: [u8; 5] = [0, 127, 128, 254, 255];

// Data of a short frame.
const DATA: [u8; 3] = [0x01, 0x22, 0x30];

// What frames are made from.
pub fn inputs() -> Octets {
    let mut fixed = Vec::new();
    for rule in Rule::ALL {
        fixed.push(written(rule, [0x00, 0x10, 0x05], &[]));
        fixed.push(written(rule, [0x05, 0x10, 0x05], &DATA));
        fixed.push(written(rule, [0x80, 0x90, 0x7F], &[0x55, 0xFF]));
    }
    Octets { fixed, good, near }
}

// Every type with every pair of addresses at the borders.
pub fn types_and_addresses(random: &mut Random, ask: AskUnder) {
    for kind in 0..=255 {
        for destination in BORDERS {
            for source in BORDERS {
                forms(random, [kind, destination, source], ask);
            }
        }
    }
}

// A frame of a type, a destination and a source, without data and with some; written under each rule,
// and asked under both.
fn forms(random: &mut Random, three: [u8; 3], ask: AskUnder) {
    for rule in Rule::ALL {
        for data in [&[][..], &DATA] {
            both(random, &written(rule, three, data), ask);
        }
    }
}

// One of the two rules.
pub fn rule(random: &mut Random) -> Rule {
    one_of(&Rule::ALL, random)
}

// An address: those at the borders of masters and slaves more often.
pub fn address(random: &mut Random) -> u8 {
    match random.below(3) {
        0 => one_of(&[0, 1, 126, 127, 128, 129, 253, 254, 255], random),
        _ => random.octet(),
    }
}

// How many data octets a frame has.
pub fn length(random: &mut Random) -> usize {
    match random.below(64) {
        0..=15 => 0,
        16..=56 => 1 + random.below(20),
        57..=61 => one_of(&LENGTHS, random),
        62 => random.below(600),
        _ if one_in(60, random) => one_of(&LONG, random),
        _ => 1 + random.below(100),
    }
}

// A frame of types 0 to 7 with right checks.
pub fn good(random: &mut Random) -> Vec<u8> {
    let rule = rule(random);
    let three = [random.below(8) as u8, address(random), address(random)];
    let length = length(random);
    written(rule, three, &random.octets(length))
}

// Any type; preamble, length, checks and size each right or wrong.
fn near(random: &mut Random) -> Vec<u8> {
    if one_in(40, random) {
        return faulty(random);
    }
    let rule = rule(random);
    let kind = match random.below(3) {
        0 => one_of(&[8, 9, 126, 127, 128, 129, 255, random.octet()], random),
        _ => random.below(8) as u8,
    };
    let three = [kind, address(random), address(random)];
    let length = length(random);
    let mut frame = written(rule, three, &random.octets(length));
    if one_in(8, random) {
        frame[random.below(2)] = random.octet();
    }
    if one_in(3, random) {
        let stated = match random.below(4) {
            0 => 0,
            1 => length.saturating_sub(1) as u16,
            2 => (length as u16).wrapping_add(1),
            _ => one_of(&[(length as u16).swap_bytes(), 501, 502, 0xFFFF], random),
        };
        frame[5..7].copy_from_slice(&stated.to_be_bytes());
        frame[7] = rule.header_check(std::array::from_fn(|index| frame[2 + index]));
    }
    if one_in(6, random) {
        frame[7] ^= 1 << random.below(8);
    }
    if one_in(6, random) {
        let last = frame.len() - 1 - random.below(2);
        frame[last] ^= 1 << random.below(8);
    }
    match random.below(8) {
        0 => frame.truncate(frame.len() - 1 - random.below(3)),
        1 => {
            let more = 1 + random.below(3);
            frame.extend(vec![one_of(&[0x00, 0x55, 0xFF], random); more]);
        }
        _ => {}
    }
    frame
}

// A frame with seven faults, each there or not: preamble, type, source, length above 501, header
// check, data check and size.
fn faulty(random: &mut Random) -> Vec<u8> {
    let mut fault = || !one_in(4, random);
    let faults: [bool; 7] = std::array::from_fn(|_| fault());
    let [preamble, kind, source, length, header, data, size] = faults;
    let three = [
        if kind { 0x08 } else { 0x05 },
        0x10,
        if source { 0xFF } else { 0x05 },
    ];
    let length = if length { 502 } else { 1 };
    let mut frame = written(rule(random), three, &random.octets(length));
    for (fault, place) in [(preamble, 0), (header, 7), (data, frame.len() - 1)] {
        frame[place] ^= u8::from(fault);
    }
    if size {
        frame.push(random.octet());
    }
    frame
}
