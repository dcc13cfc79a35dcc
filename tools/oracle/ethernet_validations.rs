// The cases of validating Ethernet frames by validation.rs.

use shared::model::ethernet::{unpadded, written, Form::EtherType, BEFORE};
use shared::octets::{choices, of_size, with, with_bits};
use shared::random::Random;

use crate::analysis_list::{ethernet, frame, FEW, MANY, VERY_MANY};
use crate::check::{Rule, RULES};
use crate::ethernet_list::{pairs, STATIONS};
use crate::list::List;

// An address of many stations.
const MULTICAST: [u8; 6] = [0x01, 0x00, 0x5E, 0x00, 0x00, 0x01];

// Adds them all.
pub fn cases(list: &mut List, random: &mut Random) {
    fronts(list, random);
    single_changes(list);
    addresses(list);
    faults_together(list);
    wrong_octets(list);
    sizes(list);
    random_frames(list, random);
}

// Adds what the Ethernet validator and the one for all kinds answer.
fn both(list: &mut List, octets: &[u8]) {
    ethernet(list, octets);
    frame(list, Rule::House, octets);
}

// Every front of a good frame of 61 octets.
fn fronts(list: &mut List, random: &mut Random) {
    let good = written(EtherType, STATIONS, &random.octets(61 - BEFORE));
    for count in 0..=good.len() {
        ethernet(list, &good[..count]);
    }
    for count in [12, 13, 14, 15, 16, 17, 18, 59, 60, 61] {
        for rule in RULES {
            frame(list, rule, &good[..count]);
        }
    }
}

// A frame without payload, with each octet of type and LLC changed by each bit, to 00 and to FF.
fn single_changes(list: &mut List) {
    for changed in with_bits(&unpadded(EtherType, STATIONS, &[]), 12..BEFORE) {
        ethernet(list, &changed);
    }
}

// Each octet of a destination and of the broadcast address changed by each bit, to 00 and to FF;
// pairs of addresses.
fn addresses(list: &mut List) {
    let [one, other] = STATIONS;
    for destination in [one, [0xFF; 6]] {
        for changed in with_bits(&unpadded(EtherType, [destination, other], &[]), 0..6) {
            ethernet(list, &changed);
        }
    }
    for addresses in pairs() {
        both(list, &written(EtherType, addresses, &[0x01, 0x20]));
    }
}

// Every choice of wrong type and wrong LLC with three destinations, in sizes with and without other
// findings.
fn faults_together(list: &mut List) {
    let [one, other] = STATIONS;
    for destination in [one, MULTICAST, [0xFF; 6]] {
        for [kind, llc] in choices() {
            let mut octets = written(EtherType, [destination, other], &[]);
            octets[13] ^= u8::from(kind);
            octets[16] ^= u8::from(llc);
            for size in [16, 17, 59, 60, 61, 2001] {
                both(list, &of_size(&octets, size));
            }
        }
    }
}

// Every choice of wrong octets in type and LLC.
fn wrong_octets(list: &mut List) {
    for faults in choices::<5>() {
        let mut octets = written(EtherType, STATIONS, &[0x01]);
        for (place, fault) in (12..BEFORE).zip(faults) {
            octets[place] ^= 0x80 * u8::from(fault);
        }
        ethernet(list, &octets);
    }
}

// Frames in all sizes around the limits.
fn sizes(list: &mut List) {
    let good = written(EtherType, STATIONS, &[]);
    for size in FEW.into_iter().chain(MANY).chain(VERY_MANY) {
        ethernet(list, &of_size(&good, size));
    }
    for size in [1514, 1515, 65_535, 65_536] {
        frame(list, Rule::House, &of_size(&good, size));
    }
    let multicast = with(&good, 0, 0x01);
    for size in VERY_MANY {
        ethernet(list, &of_size(&multicast, size));
        for rule in RULES {
            frame(list, rule, &of_size(&multicast, size));
        }
    }
}

// Random frames, as they are and with one to three changes before the payload.
fn random_frames(list: &mut List, random: &mut Random) {
    for _ in 0..40 {
        let mut octets = unpadded(EtherType, STATIONS, &random.fewer(21));
        octets[..12].copy_from_slice(&random.octets(12));
        both(list, &octets);
        random.damage(&mut octets[..BEFORE]);
        both(list, &octets);
    }
}
