// Octets as digits and as numbers, octets made from others, and choices of faults.

use std::fmt::Write;
use std::ops::Range;

// The octets, two digits each.
pub fn hex(octets: &[u8]) -> String {
    let mut text = String::new();
    for octet in octets {
        write!(text, "{octet:02x}").unwrap();
    }
    text
}

// Octets as one number, the high octet first.
pub fn number(octets: &[u8]) -> usize {
    let step = |number: usize, octet: &u8| number * 256 + usize::from(*octet);
    octets.iter().fold(0, step)
}

// The octets with another one in a place.
pub fn with(octets: &[u8], place: usize, octet: u8) -> Vec<u8> {
    let mut changed = octets.to_vec();
    changed[place] = octet;
    changed
}

// The octets with each value in each of some places.
pub fn with_each(octets: &[u8], places: Range<usize>) -> Vec<Vec<u8>> {
    let mut all = Vec::new();
    for place in places {
        all.extend((0..=255).map(|octet| with(octets, place, octet)));
    }
    all
}

// The octets with each bit turned in each of some places, and with 00 and FF there.
pub fn with_bits(octets: &[u8], places: Range<usize>) -> Vec<Vec<u8>> {
    let mut all = Vec::new();
    for place in places {
        let turned = (0..8).map(|bit| octets[place] ^ (1 << bit));
        let values = turned.chain([0x00, 0xFF]);
        all.extend(values.map(|octet| with(octets, place, octet)));
    }
    all
}

// The octets with more behind them.
pub fn then(octets: &[u8], more: &[u8]) -> Vec<u8> {
    [octets, more].concat()
}

// The octets with zeros behind them, so many that there are `count` in all, or cut to so many.
pub fn of_size(octets: &[u8], count: usize) -> Vec<u8> {
    let mut resized = octets.to_vec();
    resized.resize(count, 0x00);
    resized
}

// Every choice of so many faults: each is there or not.
pub fn choices<const COUNT: usize>() -> Vec<[bool; COUNT]> {
    let choice = |number: usize| std::array::from_fn(|fault| (number >> fault) & 1 == 1);
    (0..1 << COUNT).map(choice).collect()
}
