// The cases of validating MS/TP frames.

use shared::model::mstp::written;
use shared::octets::{choices, of_size, then, with, with_bits};
use shared::random::Random;

use crate::analysis_list::{frame, mstp, FEW, MANY, VERY_MANY};
use crate::check::Rule;
use crate::list::List;
use crate::mstp_list::{DATA, REQUEST, SLAVE, TOKEN};

// So many zeros have the data check 0000 under both rules, and twice as many too.
const CHECK_OF_ZEROS: usize = 32_767;

// Adds them all.
pub fn cases(list: &mut List, rule: Rule, random: &mut Random) {
    short_inputs(list, rule);
    types(list, rule);
    addresses(list, rule);
    good_frames(list, rule, random);
    faults_together(list, rule, random);
    faults_cut(list, rule);
    warnings_and_faults(list, rule);
    more_or_less(list, rule);
    long_data(list, rule);
    sizes(list, rule);
    single_changes(list, rule);
    other_rule(list, rule);
    random_frames(list, rule, random);
    to_slaves(list, rule);
}

// Adds what both validators that take a rule answer.
fn both(list: &mut List, rule: Rule, octets: &[u8]) {
    mstp(list, rule, octets);
    frame(list, rule, octets);
}

// Every front of a good token and of a good data frame.
fn short_inputs(list: &mut List, rule: Rule) {
    for good in [written(rule, TOKEN, &[]), written(rule, REQUEST, &DATA)] {
        for count in 0..=good.len() {
            both(list, rule, &good[..count]);
        }
    }
}

// Every type, without data.
fn types(list: &mut List, rule: Rule) {
    for kind in 0..=255 {
        mstp(list, rule, &written(rule, [kind, 0x10, 0x05], &[]));
    }
}

// Addresses at the borders between masters, slaves and all, with four types; under the house rule
// also every destination and every source.
fn addresses(list: &mut List, rule: Rule) {
    for kind in [0, 3, 8, 128] {
        borders(list, rule, kind);
    }
    if let Rule::House = rule {
        for address in 0..=255 {
            mstp(list, rule, &written(rule, [0x00, address, 0x05], &[]));
            mstp(list, rule, &written(rule, [0x00, SLAVE, address], &[]));
        }
    }
}

// A type with each destination and source at a border.
fn borders(list: &mut List, rule: Rule, kind: u8) {
    for destination in [0, 127, 128, 254, 255] {
        for source in [0, 127, 128, 254, 255] {
            mstp(list, rule, &written(rule, [kind, destination, source], &[]));
        }
    }
}

// Good frames of every type with few data octets and with as many as are allowed; 502 are too many.
fn good_frames(list: &mut List, rule: Rule, random: &mut Random) {
    for kind in 0..8 {
        let three = [kind, 0x10, 0x05];
        for length in [0, 1, 2] {
            both(list, rule, &written(rule, three, &random.octets(length)));
        }
        for length in [500, 501, 502] {
            mstp(list, rule, &written(rule, three, &random.octets(length)));
        }
    }
    for length in [255, 256, 257, 501, 502, 503] {
        frame(list, rule, &written(rule, REQUEST, &random.octets(length)));
    }
}

// Every choice of seven faults: all of them are in one result of 513 octets.
fn faults_together(list: &mut List, rule: Rule, random: &mut Random) {
    let data = random.octets(502);
    for [preamble, kind, source, long, header, size, check] in choices() {
        let kind = if kind { 0x08 } else { 0x05 };
        let source = if source { 0xFF } else { 0x05 };
        let data = if long { &data } else { &data[..3] };
        let mut octets = written(rule, [kind, 0x10, source], data);
        octets[0] ^= u8::from(preamble);
        octets[7] ^= u8::from(header);
        octets[8] ^= u8::from(check);
        if size {
            octets.push(0x00);
        }
        mstp(list, rule, &octets);
        if !preamble {
            frame(list, rule, &octets);
        }
    }
}

// Every choice of five faults where data are missing, all of them or all but one octet.
fn faults_cut(list: &mut List, rule: Rule) {
    for [preamble, kind, source, long, header] in choices() {
        let kind = if kind { 0x7F } else { 0x06 };
        let source = if source { 0xFF } else { 0x05 };
        let length = if long { 502 } else { 501 };
        let mut octets = written(rule, [kind, 0xFF, source], &vec![0x41; length]);
        octets[1] ^= u8::from(preamble);
        octets[7] ^= u8::from(header);
        mstp(list, rule, &octets[..8]);
        mstp(list, rule, &octets[..9]);
    }
}

// Both warnings, alone and together, with every choice of four faults.
fn warnings_and_faults(list: &mut List, rule: Rule) {
    for [proprietary, slave, preamble, header, size, check] in choices() {
        let kind = if proprietary { 0xFE } else { 0x06 };
        let destination = if slave { SLAVE } else { 0x10 };
        let faults = [preamble, header, size, check];
        mstp(
            list,
            rule,
            &with_faults(rule, [kind, destination, 0x05], faults),
        );
    }
}

// A frame with data and four faults, each there or not: preamble, header check, size, data check.
fn with_faults(rule: Rule, three: [u8; 3], faults: [bool; 4]) -> Vec<u8> {
    let [preamble, header, size, check] = faults;
    let mut octets = written(rule, three, &DATA);
    octets[1] ^= 0x80 * u8::from(preamble);
    octets[7] ^= 0x80 * u8::from(header);
    octets[10] ^= 0x80 * u8::from(check);
    if size {
        octets.push(0xFF);
    }
    octets
}

// A data frame, good and with two wrong data checks: octets left over, and octets missing.
fn more_or_less(list: &mut List, rule: Rule) {
    let good = written(rule, REQUEST, &DATA);
    let token = written(rule, TOKEN, &[]);
    let exchanged = with(&with(&good, 11, good[12]), 12, good[11]);
    for octets in [with(&good, 9, 0x23), exchanged, good.clone()] {
        for count in 8..=octets.len() {
            mstp(list, rule, &octets[..count]);
        }
        for more in [&[0xFF][..], &[0xFF, 0xFF], &[0x00; 3], &token, &good] {
            both(list, rule, &then(&octets, more));
        }
    }
}

// Long data of zeros whose check is 0000: whole, with an octet less or more, and with an octet
// changed.
fn long_data(list: &mut List, rule: Rule) {
    for length in [CHECK_OF_ZEROS, 2 * CHECK_OF_ZEROS] {
        let good = written(rule, REQUEST, &vec![0x00; length]);
        assert_eq!(good[8 + length..], [0x00; 2], "the check of {length} zeros");
        both(list, rule, &good);
        mstp(list, rule, &good[..good.len() - 1]);
        mstp(list, rule, &then(&good, &[0x00]));
        mstp(list, rule, &with(&good, 8, 0x01));
    }
    let header = &written(rule, REQUEST, &[0x00; 0xFFFF])[..8];
    for size in [0x10008, 0x10009, 0x1000A] {
        both(list, rule, &of_size(&then(header, &[0x01; 2]), size));
    }
}

// A token with zeros behind it, in all counts around the limits, the longer ones under the house rule
// alone; and a frame of 1,000 data octets.
fn sizes(list: &mut List, rule: Rule) {
    let token = written(rule, TOKEN, &[]);
    for size in FEW.into_iter().chain(VERY_MANY) {
        both(list, rule, &of_size(&token, size));
    }
    if let Rule::House = rule {
        for size in MANY {
            mstp(list, rule, &of_size(&token, size));
        }
    }
    mstp(list, rule, &written(rule, REQUEST, &[0x5A; 1000]));
}

// Each octet of a data frame changed by each bit, to 00 and to FF.
fn single_changes(list: &mut List, rule: Rule) {
    let request = written(rule, REQUEST, &DATA);
    for changed in with_bits(&request, 0..request.len()) {
        mstp(list, rule, &changed);
    }
    for changed in with_bits(&request, 0..4) {
        frame(list, rule, &changed);
    }
}

// Frames written under the other rule, and the house rule's pair of one check octet.
fn other_rule(list: &mut List, rule: Rule) {
    for kind in [0, 3, 5, 7] {
        for data in [&[][..], &DATA] {
            let other = written(rule.other(), [kind, 0x10, 0x05], data);
            both(list, rule, &other);
        }
    }
    let one = [0x55, 0xFF, 0x00, 0x10, 0x05, 0x00, 0x00, 0x9A];
    mstp(list, rule, &with(&one, 4, 0xAE));
}

// Random frames of any type: as they are, and with one to three changes; random octets behind 55 FF.
fn random_frames(list: &mut List, rule: Rule, random: &mut Random) {
    for _ in 0..50 {
        let three = [random.octet(), random.octet(), random.octet()];
        let mut octets = written(rule, three, &random.fewer(21));
        frame(list, rule, &octets);
        random.damage(&mut octets);
        mstp(list, rule, &octets);
    }
    for _ in 0..40 {
        frame(list, rule, &then(&[0x55, 0xFF], &random.fewer(21)));
    }
}

// Every type from a master to a slave, types 0 to 7 also with data, by both validators. Types 0 to 7
// with addresses at the borders; and type 7, which is unusual to a slave under both rules, with every
// choice of four faults.
fn to_slaves(list: &mut List, rule: Rule) {
    for kind in 0..=255 {
        mstp(list, rule, &written(rule, [kind, SLAVE, 0x05], &[]));
    }
    for kind in 0..8 {
        both(list, rule, &written(rule, [kind, SLAVE, 0x05], &DATA));
        borders(list, rule, kind);
    }
    for faults in choices() {
        mstp(list, rule, &with_faults(rule, [0x07, SLAVE, 0x05], faults));
    }
}
