// The cases of reading BVLC headers and messages.

use shared::model::bvlc::{message, LAST_FUNCTION};
use shared::octets::{choices, then, with, with_bits, with_each};
use shared::random::Random;

use crate::bip_list::{both, header, npdu, BEHIND};
use crate::list::List;

// Three functions with an NPDU, one with a time to live, two with neither, and a number of none.
const SOME: [u8; 7] = [0x0A, 0x0B, 0x04, 0x05, 0x09, 0x00, LAST_FUNCTION + 1];

// Adds them all.
pub fn cases(list: &mut List, random: &mut Random) {
    trials(list);
    short_inputs(list);
    single_changes(list);
    functions(list);
    times_to_live(list);
    sizes(list, random);
    long_messages(list, random);
    wrong_lengths(list);
    faults_together(list);
    random_messages(list, random);
}

// Document 01's trials i and j.
fn trials(list: &mut List) {
    both(list, &[0x81, 0x0D, 0x00, 0x04]);
    both(list, &[0x81, 0x0B, 0x00, 0x04]);
}

// All single octets, and every front of messages of 12 octets.
fn short_inputs(list: &mut List) {
    for octet in 0..=255 {
        both(list, &[octet]);
    }
    for function in SOME {
        let good = message(function, &BEHIND);
        for count in 0..=good.len() {
            both(list, &good[..count]);
        }
    }
}

// A message with one NPDU octet: every value of the first octet; each octet changed by each bit, to
// 00 and to FF. Every value of the second octet is among `functions`.
fn single_changes(list: &mut List) {
    let good = message(0x0A, &BEHIND[..1]);
    for changed in with_each(&good, 0..1) {
        both(list, &changed);
    }
    for changed in with_bits(&good, 0..good.len()) {
        both(list, &changed);
    }
}

// Every value of the function, with the right length: a header alone, and messages of more octets.
fn functions(list: &mut List) {
    for function in 0..=255 {
        header(list, &message(function, &[]));
        for size in [4, 5, 6, 7, 9, 10, 11, 12] {
            npdu(list, &message(function, &BEHIND[..size - 4]));
        }
    }
}

// Times to live, with an octet missing and one too many as well.
fn times_to_live(list: &mut List) {
    for time in [0x0000, 0x0001, 0x00FF, 0x0100, 0x1234, 0x8000, 0xFFFF_u16] {
        let [high, low] = time.to_be_bytes();
        for behind in [&[high][..], &[high, low], &[high, low, 0x00]] {
            npdu(list, &message(0x05, behind));
        }
    }
}

// Good messages of all small sizes, and of sizes around 17, 60 and 256.
fn sizes(list: &mut List, random: &mut Random) {
    let around = (16..=18).chain(59..=61).chain(255..=257);
    for function in SOME {
        for size in (4..=12).chain(around.clone()) {
            npdu(list, &message(function, &random.octets(size - 4)));
        }
    }
}

// Long messages, some longer than the Rust receives; and the length as a number of 16 bits.
fn long_messages(list: &mut List, random: &mut Random) {
    for size in [1496, 1497, 1498, 1500, 1501, 1513, 1514, 1515] {
        npdu(list, &message(0x0A, &random.octets(size - 4)));
    }
    for function in [0x04, 0x05, 0x09] {
        both(list, &message(function, &random.long(1496)));
    }
    let good = message(0x0B, &random.long(1496));
    npdu(list, &then(&good, &[0x00]));
    npdu(list, &good[..1499]);
    for function in [0x04, 0x05, 0x0A] {
        npdu(list, &message(function, &[0x00; 0xFFFF - 4]));
        npdu(list, &then(&message(function, &[]), &[0x00; 0x10000]));
    }
}

// Messages whose length says one less or more, is exchanged, 0 or FFFF; and two in a row.
fn wrong_lengths(list: &mut List) {
    for function in SOME {
        for size in [4, 5, 6, 10, 11] {
            let good = message(function, &BEHIND[..size - 4]);
            for low in [size - 1, size + 1, 0] {
                npdu(list, &with(&good, 3, low as u8));
            }
            npdu(list, &with(&with(&good, 2, good[3]), 3, good[2]));
            npdu(list, &with(&with(&good, 2, 0xFF), 3, 0xFF));
            npdu(list, &then(&good, &good));
        }
    }
}

// Every choice of four faults, whole and cut to 3 octets: the questions' order.
fn faults_together(list: &mut List) {
    for (function, least) in [(0x0A, 1), (0x0B, 1), (0x04, 7), (0x05, 2), (0x09, 1)] {
        for [kind, unknown, length, fewer] in choices() {
            let mut octets = message(function, &BEHIND[..least - usize::from(fewer)]);
            octets[0] ^= u8::from(kind);
            octets[1] ^= 0x10 * u8::from(unknown);
            octets[3] ^= u8::from(length);
            both(list, &octets);
            both(list, &octets[..3]);
        }
    }
}

// Random good messages, as they are and with one to three changes.
fn random_messages(list: &mut List, random: &mut Random) {
    for _ in 0..100 {
        let function = random.octet() % (LAST_FUNCTION + 1);
        let mut octets = message(function, &random.fewer(25));
        npdu(list, &octets);
        random.damage(&mut octets);
        both(list, &octets);
    }
}
