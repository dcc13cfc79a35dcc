// The cases of reading Ethernet frames in form Length.

use shared::model::ethernet::{
    unpadded, with_field, written, Form, BEFORE, BEFORE_LLC, LEAST, MOST,
};
use shared::octets::{choices, of_size, then, with, with_bits, with_each};
use shared::random::Random;

use crate::ethernet_list::{pairs, reading, STATIONS};
use crate::list::List;

// Adds them all.
pub fn cases(list: &mut List, random: &mut Random) {
    fronts(list, random);
    single_changes(list, random);
    addresses(list, random);
    payloads(list, random);
    fields(list, random);
    octets_behind(list, random);
    sizes(list, random);
    faults_together(list);
    other_form(list, random);
    random_frames(list, random);
}

// Adds a reading.
fn read(list: &mut List, octets: &[u8]) {
    reading(list, Form::Length, octets);
}

// A good frame of a size. Behind the payload are octets that its length doesn't count.
fn good(random: &mut Random, payload: usize, size: usize) -> Vec<u8> {
    let counted = unpadded(Form::Length, STATIONS, &random.octets(payload));
    let more = random.octets(size - counted.len());
    then(&counted, &more)
}

// A good frame of a size, all of whose octets are counted.
fn full(random: &mut Random, size: usize) -> Vec<u8> {
    good(random, size - BEFORE, size)
}

// Every front of a good frame of 61 octets, of which 20 are payload.
fn fronts(list: &mut List, random: &mut Random) {
    let good = good(random, 20, 61);
    for count in 0..=good.len() {
        read(list, &good[..count]);
    }
}

// A frame with either octet of its length changed to every value, or one of LLC by each bit, to 00
// and to FF.
fn single_changes(list: &mut List, random: &mut Random) {
    let good = good(random, 5, 40);
    for changed in with_each(&good, 12..BEFORE_LLC) {
        read(list, &changed);
    }
    for changed in with_bits(&good, BEFORE_LLC..BEFORE) {
        read(list, &changed);
    }
}

// All pairs of addresses; each octet of two addresses changed.
fn addresses(list: &mut List, random: &mut Random) {
    for addresses in pairs() {
        read(list, &written(Form::Length, addresses, &random.octets(3)));
    }
    let good = good(random, 3, 24);
    for place in 0..12 {
        read(list, &with(&good, place, !good[place]));
    }
}

// Payloads with padding behind them and without, as they are written.
fn payloads(list: &mut List, random: &mut Random) {
    for count in (0..=4).chain(40..=46).chain(251..=258) {
        let payload = random.octets(count);
        read(list, &written(Form::Length, STATIONS, &payload));
    }
}

// Other lengths: around 3, 1500 and what is there, and the frame's size; with exchanged octets; few
// in the longest frames.
fn fields(list: &mut List, random: &mut Random) {
    for size in [17, 18, 60, 61, 300] {
        let full = full(random, size);
        let (size, there) = (size as u16, (size - BEFORE_LLC) as u16);
        let around = there - 3..=there + 3;
        let fields = (0..=4).chain(around).chain(1499..=1502);
        let others = [size, there.swap_bytes(), 0x82DC, 0xFFFF];
        for field in fields.chain(others) {
            read(list, &with_field(&full, field));
        }
    }
    for size in [MOST - 1, MOST] {
        let full = full(random, size);
        for field in [2, 3, 1498, 1499, 1500, 1501, 0xDC05] {
            read(list, &with_field(&full, field));
        }
    }
}

// Payloads with zeros behind them, other octets, as many as a check has, and another frame.
fn octets_behind(list: &mut List, random: &mut Random) {
    let other = written(Form::Length, STATIONS, &[0x01, 0x22, 0x30]);
    for payload in [0, 1, 8, 42, 43, 44, 100] {
        let counted = full(random, BEFORE + payload);
        let check = random.octets(4);
        for more in [&[0x00][..], &[0x00; 43], &[0xFF; 43], &check, &other] {
            read(list, &then(&counted, more));
        }
    }
}

// Sizes around the limits and beyond: all octets counted, or eight of payload and zeros behind them;
// and zeros alone.
fn sizes(list: &mut List, random: &mut Random) {
    let few = (17..=20).chain(59..=61).chain(269..=271);
    let many = (MOST - 1..=MOST + 1).chain([1600]);
    for size in few.chain(many.clone()) {
        read(list, &full(random, size));
    }
    let eight = written(Form::Length, STATIONS, &random.octets(8));
    for size in (LEAST - 1..=LEAST + 1).chain(many).chain([2001, 0xFFFF]) {
        read(list, &of_size(&eight, size));
    }
    for count in (0..=20).chain([60, MOST, MOST + 1]) {
        read(list, &vec![0x00; count]);
    }
}

// Every choice of wrong LLC octets with lengths too small, too large, more than is there and right,
// in too few octets, enough, and so many that only few are told: the questions' order.
fn faults_together(list: &mut List) {
    let long = written(Form::Length, STATIONS, &[0x00; 2000]);
    for faults in choices::<3>() {
        let mut octets = long.clone();
        for (place, fault) in (BEFORE_LLC..BEFORE).zip(faults) {
            octets[place] ^= u8::from(fault);
        }
        for size in [16, 17, 18, 60, octets.len()] {
            let there = (size - BEFORE_LLC) as u16;
            for field in [0, 2, 3, there, there + 1, 1500, 1501, 0xFFFF] {
                read(list, &with_field(&octets[..size], field));
            }
        }
    }
}

// Frames of form EtherType.
fn other_form(list: &mut List, random: &mut Random) {
    for payload in [0, 1, 3, 42, 43, 44, 100, 1497, 1498] {
        let octets = random.octets(payload);
        read(list, &written(Form::EtherType, STATIONS, &octets));
    }
}

// Random good frames: as they are; with one to three changes before the payload; with more anywhere.
fn random_frames(list: &mut List, random: &mut Random) {
    for _ in 0..60 {
        let payload = random.below(21);
        let size = BEFORE + payload + random.below(21);
        let mut octets = good(random, payload, size);
        octets[..12].copy_from_slice(&random.octets(12));
        read(list, &octets);
        random.damage(&mut octets[..BEFORE]);
        read(list, &octets);
        random.damage(&mut octets);
        read(list, &octets);
    }
}
