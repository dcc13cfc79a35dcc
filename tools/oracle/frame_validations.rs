// The cases of the choice between the validators. More of it is among the cases of each kind.

use shared::octets::{of_size, with_bits};
use shared::random::Random;

use crate::analysis_list::{frame, FEW, MANY, VERY_MANY};
use crate::check::{Rule, RULES};
use crate::list::List;

// What octets 12 and 13 of an Ethernet frame have.
const TYPE: [u8; 2] = [0x82, 0xDC];

// Adds them all.
pub fn cases(list: &mut List, random: &mut Random) {
    few_octets(list);
    second_octets(list);
    heads(list);
    places(list);
    undetermined(list, random);
}

// No octet, one and two.
fn few_octets(list: &mut List) {
    for rule in RULES {
        frame(list, rule, &[]);
        for first in [0x00, 0x54, 0x55, 0x56, 0x80, 0x81, 0x82, 0xFF] {
            frame(list, rule, &[first]);
            for second in [0x00, 0x55, 0x81, 0xDC, 0xFE, 0xFF] {
                frame(list, rule, &[first, second]);
            }
        }
    }
}

// Other octets than FF behind 55, by each bit.
fn second_octets(list: &mut List) {
    for octets in with_bits(&[0x55, 0xFF, 0x00], 1..2) {
        frame(list, Rule::House, &octets);
    }
}

// 82 DC at octet 12, and other octets there, behind five heads, with 12 to 18 octets.
fn heads(list: &mut List) {
    for head in [
        [0x00, 0x00],
        [0x55, 0xFF],
        [0x55, 0xFE],
        [0x81, 0x0A],
        [0xFF, 0xFF],
    ] {
        for kind in [TYPE, [0x82, 0xDD], [0x83, 0xDC], [0xDC, 0x82]] {
            let octets = [&of_size(&head, 12), &kind[..], &[0x82, 0x82, 0x03, 0x01]].concat();
            for count in 12..=octets.len() {
                frame(list, Rule::House, &octets[..count]);
            }
        }
    }
}

// 82 DC at each of 20 octets, and nothing else.
fn places(list: &mut List) {
    for place in 0..19 {
        let octets = [&vec![0x00; place], &TYPE[..]].concat();
        frame(list, Rule::House, &of_size(&octets, 20));
    }
}

// Octets of no kind: zeros in all sizes around the limits, and random ones.
fn undetermined(list: &mut List, random: &mut Random) {
    for size in FEW.into_iter().chain(MANY).chain(VERY_MANY) {
        frame(list, Rule::House, &vec![0x00; size]);
    }
    for _ in 0..40 {
        frame(list, Rule::AnnexG, &random.fewer(31));
    }
}
