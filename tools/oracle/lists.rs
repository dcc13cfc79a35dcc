// The two lists, part by part. The samples' octets are among them.

use std::path::Path;

use shared::model::ethernet::Form;
use shared::random::Random;

use crate::check::{try_examples, RULES};
use crate::list::{frames, List};
use crate::{
    analysis_cases, bip_readings, bip_writings, ethernet_lengths, ethernet_readings,
    ethernet_validations, ethernet_writings, frame_validations, ip_validations, mstp_checks,
    mstp_readings, mstp_validations, mstp_writings, padding_cases, patterns_cases,
    statistics_cases,
};
use crate::{analysis_list, bip_list, ethernet_list, mstp_list};

// The files of samples.
const MSTP: &str = "mstp-frames.txt";
const BVLC: &str = "bvlc-messages.txt";
const ETHERNET: &str = "ethernet-frames.txt";
const LENGTHS: &str = "ethernet-length-frames.txt";

// The first list: what is read and written.
pub fn first(samples: &Path) -> List {
    try_examples();
    let mut list = List::default();
    mstp(&mut list, &frames(&samples.join(MSTP)));
    for octets in frames(&samples.join(BVLC)) {
        bip_list::both(&mut list, &octets);
    }
    bip_readings::cases(&mut list, &mut Random::new());
    bip_writings::cases(&mut list);
    let [types, lengths] = [ETHERNET, LENGTHS].map(|name| frames(&samples.join(name)));
    ethernet(&mut list, &types, &lengths);
    list
}

// The MS/TP part of the first list.
fn mstp(list: &mut List, samples: &[Vec<u8>]) {
    let mut random = Random::new();
    for rule in RULES {
        mstp_checks::cases(list, rule, &mut random);
        mstp_readings::cases(list, rule, &mut random);
        for octets in samples {
            mstp_list::reading(list, rule, octets);
        }
        mstp_writings::cases(list, rule, &mut random);
    }
}

// The Ethernet part of the first list: form EtherType with its samples, then form Length with both
// kinds of samples. One stream of random octets makes them, in this order.
fn ethernet(list: &mut List, types: &[Vec<u8>], lengths: &[Vec<u8>]) {
    let mut random = Random::new();
    for octets in types {
        ethernet_list::both(list, octets);
    }
    ethernet_readings::cases(list, &mut random);
    ethernet_writings::cases(list, Form::EtherType, &mut random);
    for octets in lengths {
        ethernet_list::both(list, octets);
    }
    for octets in types.iter().chain(lengths) {
        ethernet_list::reading(list, Form::Length, octets);
    }
    ethernet_lengths::cases(list, &mut random);
    ethernet_writings::cases(list, Form::Length, &mut random);
}

// The second list: what is found and counted.
pub fn second(samples: &Path) -> List {
    try_examples();
    let mut list = List::default();
    let mut random = Random::new();
    let files = [MSTP, BVLC, ETHERNET].map(|name| frames(&samples.join(name)));
    let samples = files.concat();
    for octets in &samples {
        sample(&mut list, octets);
    }
    for rule in RULES {
        mstp_validations::cases(&mut list, rule, &mut random);
    }
    ip_validations::cases(&mut list, &mut random);
    ethernet_validations::cases(&mut list, &mut random);
    frame_validations::cases(&mut list, &mut random);
    statistics_cases::cases(&mut list, &mut random);
    patterns_cases::cases(&mut list, &mut random);
    analysis_cases::cases(&mut list, &mut random);
    padding_cases::cases(&mut list, &samples, &mut random);
    list
}

// Adds what the second list asks of a sample, but for the padding search.
fn sample(list: &mut List, octets: &[u8]) {
    for rule in RULES {
        analysis_list::mstp(list, rule, octets);
        analysis_list::frame(list, rule, octets);
        analysis_list::analysis(list, rule, octets, 16);
    }
    analysis_list::ip(list, octets);
    analysis_list::ethernet(list, octets);
    analysis_list::statistics(list, octets);
    analysis_list::patterns(list, octets, 16);
}
