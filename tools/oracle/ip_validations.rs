// The cases of validating IP frames.

use shared::model::bvlc::message;
use shared::octets::{choices, of_size, with, with_bits};
use shared::random::Random;

use crate::analysis_list::{frame, ip, FEW, MANY, VERY_MANY};
use crate::bip_list::BEHIND;
use crate::check::{Rule, RULES};
use crate::list::List;

// Functions without a warning, with each one, the last that is let pass, and two that are none.
const SOME: [u8; 8] = [0x00, 0x0A, 0x0C, 0x01, 0x08, 0x0D, 0x0E, 0xFF];

// Adds them all.
pub fn cases(list: &mut List, random: &mut Random) {
    functions(list);
    short_inputs(list);
    single_changes(list);
    faults_together(list);
    wrong_lengths(list);
    sizes(list);
    random_messages(list, random);
}

// Adds what the IP validator and the one for all kinds answer.
fn both(list: &mut List, octets: &[u8]) {
    ip(list, octets);
    frame(list, Rule::House, octets);
}

// Every function, with the right length.
fn functions(list: &mut List) {
    for function in 0..=255 {
        ip(list, &message(function, &BEHIND[..2]));
    }
    for function in 0..=0x0F {
        for rule in RULES {
            frame(list, rule, &message(function, &[]));
        }
    }
}

// Every front of messages of eight functions.
fn short_inputs(list: &mut List) {
    for function in SOME {
        let good = message(function, &BEHIND[..3]);
        for count in 0..=good.len() {
            both(list, &good[..count]);
        }
    }
}

// Each octet of a message changed by each bit, to 00 and to FF.
fn single_changes(list: &mut List) {
    let good = message(0x0B, &BEHIND);
    for changed in with_bits(&good, 0..5) {
        ip(list, &changed);
    }
    for changed in with_bits(&good, 0..1) {
        frame(list, Rule::House, &changed);
    }
}

// Every choice of three faults with eight functions, two of which are a fault of their own.
fn faults_together(list: &mut List) {
    for function in SOME {
        for [kind, length, long] in choices() {
            let behind = if long { 1997 } else { 2 };
            let mut octets = message(function, &vec![0x00; behind]);
            octets[0] ^= u8::from(kind);
            octets[3] ^= u8::from(length);
            both(list, &octets);
        }
    }
}

// Lengths that say one less or more, are exchanged, 0 or FFFF.
fn wrong_lengths(list: &mut List) {
    for size in [4, 5, 12] {
        let good = message(0x0A, &BEHIND[..size - 4]);
        for low in [size - 1, size + 1, 0] {
            ip(list, &with(&good, 3, low as u8));
        }
        ip(list, &with(&with(&good, 2, good[3]), 3, good[2]));
        ip(list, &with(&with(&good, 2, 0xFF), 3, 0xFF));
    }
}

// Messages in all sizes around the limits, with the right length as far as two octets can say it.
fn sizes(list: &mut List) {
    for size in FEW.into_iter().chain(MANY).chain(VERY_MANY) {
        let [_, _, high, low] = (size as u32).to_be_bytes();
        ip(list, &of_size(&[0x81, 0x0A, high, low], size));
    }
    for size in [1497, 1498, 65_535, 65_536] {
        let [_, _, high, low] = (size as u32).to_be_bytes();
        frame(list, Rule::House, &of_size(&[0x81, 0x01, high, low], size));
    }
}

// Random messages, as they are and with one to three changes.
fn random_messages(list: &mut List, random: &mut Random) {
    for _ in 0..50 {
        let function = random.octet() % 0x10;
        let mut octets = message(function, &random.fewer(25));
        both(list, &octets);
        random.damage(&mut octets);
        both(list, &octets);
    }
}
