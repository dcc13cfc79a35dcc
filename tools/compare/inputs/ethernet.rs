// Ethernet frames of both forms, good and with faults.

use shared::model::ethernet::{unpadded, with_field, written, Addresses, Form, FIXED};
use shared::octets::{number, of_size, then};
use shared::random::Random;

use crate::inputs::{one_in, one_of, Octets};

// Payload sizes at the borders: with and without padding, and around the most.
const BORDERS: [usize; 11] = [0, 1, 41, 42, 43, 44, 1495, 1496, 1497, 1498, 1499];

// Counts of octets at the borders of a frame of form Length.
const SIZES: [usize; 13] = [12, 13, 14, 15, 16, 17, 18, 59, 60, 61, 1513, 1514, 1515];

// A station as destination and as source, and all stations.
const STATION: Addresses = [[0x00, 0x11, 0x22, 0x33, 0x44, 0x55]; 2];
const STATIONS: Addresses = [[0xFF; 6]; 2];

// What frames of form EtherType are made from.
pub fn inputs() -> Octets {
    let mut short = written(Form::EtherType, STATION, &[]);
    short.truncate(18);
    let fixed = vec![
        short,
        written(Form::EtherType, STATION, &[0x01, 0x20]),
        written(Form::EtherType, STATIONS, &[0x01]),
    ];
    Octets { fixed, good, near }
}

// What frames of form Length are made from.
pub fn length_inputs() -> Octets {
    let fixed = vec![
        unpadded(Form::Length, STATION, &[0x01]),
        written(Form::Length, STATION, &[0x01, 0x20]),
        then(&unpadded(Form::Length, STATIONS, &[0x01]), &[0xFF; 30]),
    ];
    Octets {
        fixed,
        good: good_length,
        near: near_length,
    }
}

// Two addresses: those of a station, of many, of all.
pub fn addresses(random: &mut Random) -> Addresses {
    [0; 2].map(|_| match random.below(4) {
        0 => [0xFF; 6],
        1 => [0xFF, 0xFF, 0xFF, 0xFF, 0xFF, random.octet()],
        _ => std::array::from_fn(|_| random.octet()),
    })
}

// How many octets a payload has.
pub fn size(random: &mut Random) -> usize {
    match random.below(32) {
        0..=11 => random.below(60),
        12..=19 => one_of(&BORDERS, random),
        20 => random.below(1600),
        21 if one_in(60, random) => one_of(&[2000, 65_518, 65_519], random),
        _ => 30 + random.below(20),
    }
}

// A frame with its padding or, shorter, without.
pub fn good(random: &mut Random) -> Vec<u8> {
    let addresses = addresses(random);
    let size = size(random);
    let mut frame = written(Form::EtherType, addresses, &random.octets(size));
    if one_in(3, random) {
        frame.truncate(17 + size);
    }
    frame
}

// Type and LLC octets right or wrong, and a count of octets around a border.
fn near(random: &mut Random) -> Vec<u8> {
    let mut frame = good(random);
    for place in 12..17 {
        if one_in(10, random) {
            frame[place] = one_of(&[0x00, 0x82, 0xDC, 0x03, FIXED[place - 12] ^ 1], random);
        }
    }
    if one_in(4, random) {
        let count = one_of(&[12, 13, 14, 15, 16, 17, 18, 59, 60, 61], random);
        frame.resize(count, 0);
    }
    frame
}

// A frame of form Length; behind its payload there is nothing, padding, or more octets, zeros or others.
fn good_length(random: &mut Random) -> Vec<u8> {
    let addresses = addresses(random);
    let size = size(random);
    let payload = random.octets(size);
    let frame = unpadded(Form::Length, addresses, &payload);
    match random.below(8) {
        0 | 1 => frame,
        2 => then(&frame, &random.fewer(60)),
        3 => of_size(&frame, frame.len() + random.below(60)),
        4 if one_in(8, random) => resized(&frame, one_of(&SIZES, random).max(frame.len()), random),
        _ => written(Form::Length, addresses, &payload),
    }
}

// A count of octets around a border; a length right or wrong, and LLC octets too.
fn near_length(random: &mut Random) -> Vec<u8> {
    let mut frame = good_length(random);
    if one_in(4, random) {
        frame = resized(&frame, one_of(&SIZES, random), random);
    }
    if frame.len() >= 14 && one_in(2, random) {
        frame = with_field(&frame, length(&frame, random));
    }
    for place in 14..frame.len().min(17) {
        if one_in(10, random) {
            frame[place] = one_of(&[0x00, 0x82, 0xDC, 0x03, FIXED[place - 12] ^ 1], random);
        }
    }
    frame
}

// The octets cut to so many, or with others behind them.
fn resized(octets: &[u8], count: usize, random: &mut Random) -> Vec<u8> {
    let more = random.octets(count.saturating_sub(octets.len()));
    then(&octets[..octets.len().min(count)], &more)
}

// What stands as length: a limit, a count around what is there, the octets exchanged, 82 DC, any.
fn length(frame: &[u8], random: &mut Random) -> u16 {
    let less = |count| (frame.len() as u16).wrapping_sub(count);
    let exchanged = (number(&frame[12..14]) as u16).swap_bytes();
    match random.below(8) {
        0 => one_of(&[0, 1, 2, 3, 4], random),
        1 => one_of(&[1499, 1500, 1501, 1502], random),
        2 | 3 => less(one_of(&[0, 13, 14, 15, 16, 17], random)),
        4 => exchanged,
        5 => one_of(&[0x82DC, 0x0082, 0xFFFF], random),
        6 => random.below(64) as u16,
        _ => random.below(0x1_0000) as u16,
    }
}
