// The cases of validating Ethernet frames, and of reading them in form EtherType.

use shared::model::ethernet::{
    unpadded, written,
    Form::{EtherType, Length},
    BEFORE,
};
use shared::octets::{choices, with, with_bits, with_each};
use shared::random::Random;

use crate::ethernet_list::{both, pairs, reading, validating, STATIONS};
use crate::list::List;

// Adds them all.
pub fn cases(list: &mut List, random: &mut Random) {
    fronts(list, random);
    single_changes(list);
    addresses(list, random);
    short_inputs(list, random);
    sizes(list, random);
    length_fields(list, random);
    faults_together(list);
    random_frames(list, random);
}

// A good frame of a size, also of one below 60, without padding.
fn good(random: &mut Random, size: usize) -> Vec<u8> {
    unpadded(EtherType, STATIONS, &random.octets(size - BEFORE))
}

// Every front of a good frame of 61 octets.
fn fronts(list: &mut List, random: &mut Random) {
    let good = good(random, 61);
    for count in 0..=good.len() {
        both(list, &good[..count]);
    }
}

// A frame without payload, with each octet of type and LLC changed: for reading to every value, for
// the validator by each bit, to 00 and to FF.
fn single_changes(list: &mut List) {
    let good = unpadded(EtherType, STATIONS, &[]);
    for changed in with_each(&good, 12..BEFORE) {
        reading(list, EtherType, &changed);
    }
    for changed in with_bits(&good, 12..BEFORE) {
        validating(list, &changed);
    }
}

// All pairs of addresses; each octet of two addresses changed.
fn addresses(list: &mut List, random: &mut Random) {
    for addresses in pairs() {
        both(list, &written(EtherType, addresses, &random.octets(3)));
    }
    let good = good(random, 20);
    for place in 0..12 {
        for change in [0x01, 0x80, 0xFF] {
            both(list, &with(&good, place, good[place] ^ change));
        }
    }
}

// Few octets that are no frame.
fn short_inputs(list: &mut List, random: &mut Random) {
    for count in 0..=20 {
        both(list, &vec![0x00; count]);
        both(list, &vec![0xFF; count]);
        both(list, &random.octets(count));
    }
}

// Good frames of sizes around the limits and beyond.
fn sizes(list: &mut List, random: &mut Random) {
    let long = (1496..=1499).chain(1513..=1516).chain([1600]);
    for size in (17..=20).chain(59..=61).chain(long) {
        both(list, &good(random, size));
    }
    both(
        list,
        &written(EtherType, STATIONS, &random.long(0xFFFF - BEFORE)),
    );
}

// Frames of form Length.
fn length_fields(list: &mut List, random: &mut Random) {
    for payload in [0, 1, 3, 42, 43, 44, 100] {
        let octets = random.octets(payload);
        both(list, &written(Length, STATIONS, &octets));
    }
}

// Every choice of wrong octets in type and LLC, with too few octets, enough, and so many that only
// few are told; and a frame one octet too long with all of them wrong: the questions' order.
fn faults_together(list: &mut List) {
    let long = written(EtherType, STATIONS, &[0x00; 2000]);
    for faults in choices::<5>() {
        let mut octets = long.clone();
        for (place, fault) in (12..BEFORE).zip(faults) {
            octets[place] ^= u8::from(fault);
        }
        for size in [16, 17, 18, octets.len()] {
            both(list, &octets[..size]);
        }
    }
    both(list, &[0x00; 1515]);
}

// Random good frames: as they are; with one to three changes before the payload; with more anywhere.
fn random_frames(list: &mut List, random: &mut Random) {
    for _ in 0..60 {
        let size = BEFORE + random.below(21);
        let mut octets = good(random, size);
        octets[..12].copy_from_slice(&random.octets(12));
        both(list, &octets);
        random.damage(&mut octets[..BEFORE]);
        both(list, &octets);
        random.damage(&mut octets);
        both(list, &octets);
    }
}
