// The validators of validation.rs.

use bacnet::datalink::validation::{
    validate_bacnet_ip_frame, validate_ethernet_frame, validate_frame, validate_mstp_frame,
    ValidationResult,
};
use ffi::{
    lefkanu_validate_bacnet_ip_frame, lefkanu_validate_ethernet_frame, lefkanu_validate_frame,
    lefkanu_validate_mstp_frame, RESULT_NUMBERS,
};
use shared::model::findings::{Findings, Link};
use shared::model::validators;
use shared::octets::hex;
use shared::random::Random;
use shared::rust::findings::{told, told_under_annex_g};

use crate::call::Call;
use crate::check::Rule;
use crate::inputs::{any, bip, ethernet, mstp};
use crate::lent::Lent;
use crate::other_rule::as_house;
use crate::outcome::{model, Rust, Told};
use crate::tally::Tally;
use crate::written::InMemory;

// How many frames there are: under each rule, or where there is none.
const FRAMES: usize = 530_000;
const RULELESS: usize = 1_050_000;

// A validator of the library, of the model and of the Rust; those without a rule ignore it.
struct Validator {
    ours: fn(u8, &[u8], *mut [usize; RESULT_NUMBERS]) -> u8,
    model: fn(Rule, &[u8]) -> Findings,
    rust: fn(&[u8]) -> ValidationResult,
}

// Compares the MS/TP validator.
pub fn mstp_frame(tally: &mut Tally, random: &mut Random) {
    let validator = Validator {
        ours: |rule, frame, result| unsafe {
            lefkanu_validate_mstp_frame(rule, frame.as_ptr(), frame.len(), result)
        },
        model: validators::mstp,
        rust: validate_mstp_frame,
    };
    let mut ask = |random: &mut Random, rule: u8, frame: &[u8]| {
        validate(tally, random, &validator, rule, frame);
    };
    mstp::types_and_addresses(random, &mut ask);
    mstp::inputs().under_rules(FRAMES, random, &mut ask);
}

// Compares the IP validator.
pub fn bacnet_ip_frame(tally: &mut Tally, random: &mut Random) {
    let validator = Validator {
        ours: |_, frame, result| unsafe {
            lefkanu_validate_bacnet_ip_frame(frame.as_ptr(), frame.len(), result);
            0
        },
        model: |_, frame| validators::ip(frame),
        rust: validate_bacnet_ip_frame,
    };
    let mut ask = |random: &mut Random, frame: &[u8]| {
        validate(tally, random, &validator, Rule::House as u8, frame);
    };
    bip::headers(random, &mut ask);
    bip::inputs().each(RULELESS, random, &mut ask);
}

// Compares the Ethernet validator.
pub fn ethernet_frame(tally: &mut Tally, random: &mut Random) {
    let validator = Validator {
        ours: |_, frame, result| unsafe {
            lefkanu_validate_ethernet_frame(frame.as_ptr(), frame.len(), result);
            0
        },
        model: |_, frame| validators::ethernet(frame),
        rust: validate_ethernet_frame,
    };
    ethernet::inputs().each(RULELESS, random, &mut |random, frame| {
        validate(tally, random, &validator, Rule::House as u8, frame);
    });
}

// Compares the validator for all kinds.
pub fn any_frame(tally: &mut Tally, random: &mut Random) {
    let validator = Validator {
        ours: |rule, frame, result| unsafe {
            lefkanu_validate_frame(rule, frame.as_ptr(), frame.len(), result)
        },
        model: validators::frame,
        rust: validate_frame,
    };
    let mut ask = |random: &mut Random, rule: u8, frame: &[u8]| {
        validate(tally, random, &validator, rule, frame);
    };
    mstp::types_and_addresses(random, &mut ask);
    any::frames().under_rules(FRAMES, random, &mut ask);
}

// One frame validated.
fn validate(tally: &mut Tally, random: &mut Random, validator: &Validator, rule: u8, frame: &[u8]) {
    let mut numbers = Lent::<usize>::new(RESULT_NUMBERS, random);
    let answer = (validator.ours)(rule, frame, numbers.array());
    let mut rust = Rust::Silent;
    let found = Rule::of(rule).map(|rule| {
        let found = (validator.model)(rule, frame);
        see(tally, &found);
        see_mstp_header(tally, rule, frame, &found);
        let (judge, told) = rust_findings(rule, frame, &found, validator.rust);
        rust = judge(Ok(told.written()));
        found
    });
    tally.compare(Call {
        answer,
        lent: &mut [&mut numbers],
        model: model(found),
        rust,
        input: &|| format!("rule {rule}, {}", hex(frame)),
    });
}

// What the Rust finds, and how much of it it judges. An MS/TP frame under Annex G it gets as the house
// rule has it; the numbers in its entries of kind 4 are then the model's, and what it warns of and
// Annex G does not is left out.
pub fn rust_findings(
    rule: Rule,
    frame: &[u8],
    model: &Findings,
    validate: fn(&[u8]) -> ValidationResult,
) -> (fn(Told) -> Rust, Findings) {
    let checked = model.link == Link::Mstp && frame.len() >= 8;
    if rule == Rule::House || !checked {
        return (Rust::Whole, told(&validate(frame)));
    }
    let mut found = told_under_annex_g(frame, &validate(&as_house(frame)));
    let checks = model.errors.iter().filter(|error| error[0] == 4);
    let mine = found.errors.iter_mut().filter(|error| error[0] == 4);
    for (error, check) in mine.zip(checks) {
        *error = *check;
    }
    (Rust::ButChecks, found)
}

// Counts MS/TP frames by rule, type, and the classes of their addresses.
pub fn see_mstp_header(tally: &mut Tally, rule: Rule, frame: &[u8], found: &Findings) {
    if let (Link::Mstp, [_, _, kind, to, from, _, _, _, ..]) = (found.link, frame) {
        tally.see_header([rule as u8, *kind, class(*to), class(*from)]);
    }
}

// The class of an address: a master, a slave, or all stations.
fn class(address: u8) -> u8 {
    match address {
        0..=127 => 0,
        128..=254 => 1,
        255 => 2,
    }
}

// Counts what was found: kinds, with the reasons that they have, links, and how many errors.
fn see(tally: &mut Tally, found: &Findings) {
    tally.see(('l', found.link as usize, 0));
    tally.see(('n', found.errors.len(), 0));
    for [kind, first, _] in &found.errors {
        tally.see(('e', *kind, if *kind == 7 { *first } else { 0 }));
    }
    for [kind, first, _] in &found.warnings {
        tally.see(('w', *kind, if *kind > 1 { *first } else { 0 }));
    }
}
