// BVLC messages, good and with faults.

use shared::model::bvlc::message;
use shared::octets::then;
use shared::random::Random;

use crate::inputs::{one_in, one_of, Ask, Octets};

// The functions whose sizes matter.
const CARRYING: [u8; 4] = [0x04, 0x05, 0x0A, 0x0B];

// What messages are made from.
pub fn inputs() -> Octets {
    let fixed = vec![
        message(0x0A, &[0x01]),
        message(0x0B, &[0x01, 0x20]),
        message(0x04, &[0xC0, 0xA8, 0x00, 0x01, 0xBA, 0xC0, 0x01]),
        message(0x05, &[0x00, 0x3C]),
        message(0x09, &[0x01]),
        message(0x0D, &[]),
    ];
    Octets { fixed, good, near }
}

// How many octets stand behind the header.
fn size(random: &mut Random) -> usize {
    match random.below(64) {
        0..=39 => random.below(9),
        40..=59 => random.below(40),
        60..=62 => one_of(&[1492, 1493, 1494, 1496, 1497, 252, 256], random),
        _ if one_in(60, random) => 65_531,
        _ => random.below(300),
    }
}

// A message of any function, more often one whose size matters.
pub fn good(random: &mut Random) -> Vec<u8> {
    let function = match random.below(2) {
        0 => one_of(&CARRYING, random),
        _ => random.below(13) as u8,
    };
    let size = size(random);
    message(function, &random.octets(size))
}

// Type, function and length each right or wrong.
fn near(random: &mut Random) -> Vec<u8> {
    let mut octets = good(random);
    if one_in(8, random) {
        octets[0] = random.octet();
    }
    if one_in(4, random) {
        octets[1] = one_of(&[0x0C, 0x0D, 0x0E, 0xFF, random.octet()], random);
    }
    if one_in(4, random) {
        let count = octets.len() as u16;
        let others = [
            count - 1,
            count.wrapping_add(1),
            count.swap_bytes(),
            0,
            4,
            6,
        ];
        octets[2..4].copy_from_slice(&one_of(&others, random).to_be_bytes());
    }
    octets
}

// Every function with sizes around those that matter and lengths that say these and others.
pub fn headers(random: &mut Random, ask: Ask) {
    for function in 0..=255 {
        for size in 4..=14 {
            for stated in 3..=15 {
                let behind = random.octets(size - 4);
                let octets = then(&[0x81, function, 0x00, stated], &behind);
                ask(random, &octets);
            }
        }
    }
}
