// The cases of reading MS/TP frames.

use shared::model::mstp::written;
use shared::octets::{choices, then, with, with_bits, with_each};
use shared::random::Random;

use crate::check::Rule;
use crate::list::List;
use crate::mstp_list::{reading, DATA, REQUEST, TOKEN};

// Adds them all.
pub fn cases(list: &mut List, rule: Rule, random: &mut Random) {
    short_inputs(list, rule);
    single_changes(list, rule);
    types_and_addresses(list, rule);
    lengths(list, rule, random);
    sizes(list, rule);
    faults_together(list, rule);
    other_rule(list, rule);
    random_damage(list, rule, random);
}

// Every prefix of a good token and of a good data frame; under the house rule all single octets.
fn short_inputs(list: &mut List, rule: Rule) {
    for good in [written(rule, TOKEN, &[]), written(rule, REQUEST, &DATA)] {
        for count in 0..=good.len() {
            reading(list, rule, &good[..count]);
        }
    }
    if let Rule::House = rule {
        for octet in 0..=255 {
            reading(list, rule, &[octet]);
        }
    }
}

// One octet changed: of a token to every value, of a data frame by each bit, to 00 and to FF.
fn single_changes(list: &mut List, rule: Rule) {
    let token = written(rule, TOKEN, &[]);
    for changed in with_each(&token, 0..token.len()) {
        reading(list, rule, &changed);
    }
    let request = written(rule, REQUEST, &DATA);
    for changed in with_bits(&request, 0..request.len()) {
        reading(list, rule, &changed);
    }
}

// All types and some that are none, address 255, and the house rule's pair of one check octet.
fn types_and_addresses(list: &mut List, rule: Rule) {
    for data in [&[][..], &DATA] {
        for kind in [0, 1, 2, 3, 4, 5, 6, 7, 8, 9, 127, 128, 255] {
            reading(list, rule, &written(rule, [kind, 0x10, 0x05], data));
        }
        for (destination, source) in [(0x10, 0xFF), (0xFF, 0x05), (0xFF, 0xFF)] {
            let three = [0x06, destination, source];
            reading(list, rule, &written(rule, three, data));
        }
    }
    let one = [0x55, 0xFF, 0x00, 0x10, 0x05, 0x00, 0x00, 0x9A];
    reading(list, rule, &one);
    reading(list, rule, &with(&one, 4, 0xAE));
}

// Good frames of many lengths; some of them also with an octet less or more, or a wrong data check.
fn lengths(list: &mut List, rule: Rule, random: &mut Random) {
    for length in [1, 2, 255, 256, 257, 500, 501, 502, 503, 1000, 65535] {
        reading(list, rule, &written(rule, REQUEST, &random.long(length)));
    }
    reading(list, rule, &written(rule, REQUEST, &random.octets(501)));
    for length in [1, 501, 502, 65535] {
        let good = written(rule, REQUEST, &random.long(length));
        let (front, check) = good.split_at(8 + length);
        reading(list, rule, &good);
        reading(list, rule, &good[..good.len() - 1]);
        if length < 65535 {
            reading(list, rule, &then(&good, &[0x00]));
        }
        reading(list, rule, &then(front, &[check[1], check[0]]));
        reading(list, rule, &then(front, &[0x00, 0x00]));
        reading(list, rule, &with(&good, 8, good[8] ^ 0x20));
    }
}

// Another total than the length says: pad octets, two frames in a row, a header without its data.
fn sizes(list: &mut List, rule: Rule) {
    let token = written(rule, TOKEN, &[]);
    let request = written(rule, REQUEST, &DATA);
    for good in [&token, &request] {
        for more in [&[0xFF][..], &[0xFF, 0xFF], &[0x00, 0x00], &token, &request] {
            reading(list, rule, &then(good, more));
        }
    }
    for length in [1, 3, 256, 501, 502, 65535] {
        let good = written(rule, REQUEST, &vec![0x00; length]);
        reading(list, rule, &good[..8]);
    }
}

// Every choice of six faults in a data frame, whole and cut to 7 octets: the questions' order.
fn faults_together(list: &mut List, rule: Rule) {
    for [kind, preamble, header, data, shorter, longer] in choices() {
        let kind = if kind { 0x08 } else { 0x05 };
        let mut octets = written(rule, [kind, 0x10, 0x05], &DATA);
        octets[1] ^= u8::from(preamble);
        octets[7] ^= u8::from(header);
        octets[8] ^= u8::from(data);
        if shorter {
            octets.pop();
        }
        if longer {
            octets.push(0x00);
        }
        reading(list, rule, &octets);
        reading(list, rule, &octets[..7]);
    }
}

// Frames written under the other rule, as they are and with the header check of this one.
fn other_rule(list: &mut List, rule: Rule) {
    for kind in 0..8 {
        for data in [&[][..], &DATA] {
            let three = [kind, 0x10, 0x05];
            let other = written(rule.other(), three, data);
            reading(list, rule, &other);
            reading(list, rule, &with(&other, 7, written(rule, three, data)[7]));
        }
    }
}

// Random good frames with one to three changes.
fn random_damage(list: &mut List, rule: Rule, random: &mut Random) {
    for _ in 0..200 {
        let three = [random.octet() % 8, random.octet(), random.octet()];
        let mut octets = written(rule, three, &random.fewer(41));
        random.damage(&mut octets);
        reading(list, rule, &octets);
    }
}
