// MS/TP frames, read and written.

use ffi::{lefkanu_mstp_decode, lefkanu_mstp_encode, NO_CASE};
use shared::model::mstp::{self, size, LAST_TYPE};
use shared::octets::hex;
use shared::random::Random;
use shared::rust;

use crate::call::Call;
use crate::check::Rule;
use crate::inputs::{mstp as inputs, one_of, short, LONGEST};
use crate::lent::Lent;
use crate::other_rule::{as_annex_g, as_house};
use crate::outcome::{model, Refusal, Rust, Told};
use crate::tally::Tally;
use crate::written::InMemory;

// How many frames are read under each rule, and how many random ones are written.
const FRAMES: usize = 550_000;
const WRITTEN: usize = 750_000;

// Compares reading, under both rules and under numbers that name none.
pub fn decode(tally: &mut Tally, random: &mut Random) {
    inputs::inputs().under_rules(FRAMES, random, &mut |random, rule, frame| {
        read(tally, random, rule, frame);
    });
}

// One frame read.
fn read(tally: &mut Tally, random: &mut Random, rule: u8, frame: &[u8]) {
    let mut header = Lent::<usize>::new(8, random);
    let answer = unsafe { lefkanu_mstp_decode(rule, frame.as_ptr(), frame.len(), header.array()) };
    let named = Rule::of(rule);
    tally.compare(Call {
        answer,
        lent: &mut [&mut header],
        model: model(named.and_then(|rule| mstp::read(rule, frame))),
        rust: match named {
            Ok(Rule::House) => Rust::whole(rust::mstp::read(frame)),
            Ok(Rule::AnnexG) => Rust::ButChecks(rust_read(frame)),
            Err(_) => Rust::Silent,
        },
        input: &|| format!("rule {rule}, {}", hex(frame)),
    });
}

// What the Rust reads of a frame under Annex G, as the house rule has it. The checks are told as the
// frame itself has them.
fn rust_read(frame: &[u8]) -> Told {
    let house = as_house(frame);
    let mut read = rust::mstp::read(&house).map_err(Refusal::Error)?;
    let end = 8 + read.data.len();
    let checks = |frame: &[u8]| {
        let sent = frame[end..].first_chunk().copied();
        (frame[7], sent.map(u16::from_le_bytes))
    };
    let told = (read.header_check, read.data_check);
    assert_eq!(told, checks(&house), "the checks that the Rust read");
    (read.header_check, read.data_check) = checks(frame);
    Ok(read.written())
}

// All data of two octets and fewer, all pairs of addresses, data of every length up to 600 with every
// type and each output around the fit; random ones; numbers that name nothing.
pub fn encode(tally: &mut Tally, random: &mut Random) {
    short(random, &mut |random, data| {
        let rule = random.below(2) as u8;
        let three = three(random);
        fitting(tally, random, rule, three, data);
    });
    for addresses in 0..=0xFFFF_u16 {
        let [destination, source] = addresses.to_be_bytes();
        for rule in 0..2 {
            let kind = random.below(8) as u8;
            let data = random.fewer(4);
            fitting(tally, random, rule, [kind, destination, source], &data);
        }
    }
    for length in (0..=600).chain(LONGEST) {
        for kind in 0..8 {
            for rule in 0..2 {
                let [_, destination, source] = three(random);
                let data = random.octets(length);
                for room in rooms(length) {
                    let three = [kind, destination, source];
                    write(tally, random, rule, three, &data, room);
                }
            }
        }
    }
    for _ in 0..WRITTEN {
        let rule = random.below(2) as u8;
        let three = three(random);
        let length = inputs::length(random);
        let data = random.octets(length);
        fitting(tally, random, rule, three, &data);
    }
    for number in 2..=255 {
        for length in [0, 1, 3, 501, 502] {
            let data = random.octets(length);
            let [kind, destination, source] = three(random);
            let unnamed = [number.max(8), destination, source];
            let named = random.below(2) as u8;
            for room in rooms(length) {
                let three = [kind, destination, source];
                write(tally, random, number, three, &data, room);
                write(tally, random, named, unnamed, &data, room);
                write(tally, random, number, unnamed, &data, room);
            }
        }
    }
}

// A type, and two addresses.
fn three(random: &mut Random) -> [u8; 3] {
    let kind = random.below(8) as u8;
    [kind, inputs::address(random), inputs::address(random)]
}

// Outputs around the fit, and others.
fn rooms(length: usize) -> [usize; 9] {
    let size = size(length);
    [0, 7, 8, size - 2, size - 1, size, size + 1, size + 2, 520]
}

// Writes into an output around the fit, more often one that is large enough.
fn fitting(tally: &mut Tally, random: &mut Random, rule: u8, three: [u8; 3], data: &[u8]) {
    let room = match random.below(3) {
        0 => one_of(&rooms(data.len()), random),
        _ => size(data.len()) + random.below(9),
    };
    write(tally, random, rule, three, data, room);
}

// One frame written.
fn write(
    tally: &mut Tally,
    random: &mut Random,
    rule: u8,
    three: [u8; 3],
    data: &[u8],
    room: usize,
) {
    let [kind, to, from] = three;
    let mut out = Lent::<u8>::new(room, random);
    let mut count = Lent::<usize>::new(1, random);
    let (octets, length) = (data.as_ptr(), data.len());
    let (list, counted) = (out.pointer(), count.pointer());
    let answer =
        unsafe { lefkanu_mstp_encode(rule, kind, to, from, octets, length, list, room, counted) };
    tally.compare(Call {
        answer,
        lent: &mut [&mut out, &mut count],
        model: model(written(rule, three, data, room)),
        rust: rust_write(rule, three, data, room),
        input: &|| format!("rule {rule}, {}, {}, room {room}", hex(&three), hex(data)),
    });
}

// What document 01 says of writing.
fn written(rule: u8, three: [u8; 3], data: &[u8], room: usize) -> Result<Vec<u8>, u8> {
    let rule = Rule::of(rule)?;
    if three[0] > LAST_TYPE {
        return Err(NO_CASE);
    }
    mstp::write(rule, three, data, room)
}

// What the Rust writes, if it fits; under Annex G with that rule's checks for its own.
fn rust_write(rule: u8, three: [u8; 3], data: &[u8], room: usize) -> Rust {
    let Ok(rule) = Rule::of(rule) else {
        return Rust::Silent;
    };
    let Some(written) = rust::mstp::write(three, data) else {
        return Rust::answer(NO_CASE);
    };
    match written {
        Ok(frame) if rule == Rule::AnnexG && frame.len() <= room => {
            Rust::ButChecks(Ok(as_annex_g(&frame).written()))
        }
        written => Rust::fitting(written, room),
    }
}
