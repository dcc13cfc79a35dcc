// The check octets.

use ffi::{lefkanu_calculate_header_crc, lefkanu_crc16_mstp};
use shared::model::checks::Checks;
use shared::octets::hex;
use shared::random::Random;
use shared::rust::checks::House;

use crate::call::Call;
use crate::check::Rule;
use crate::inputs::{changed, mstp, one_of, short, LONGEST};
use crate::lent::Lent;
use crate::outcome::{model, Rust};
use crate::tally::Tally;

// How many random inputs there are.
const RANDOM: usize = 400_000;

// All values of each two octets of a header; random headers; numbers that name no rule.
pub fn calculate_header_crc(tally: &mut Tally, random: &mut Random) {
    let base = [0x00, 0x10, 0x05, 0x00, 0x00];
    for first in 0..base.len() {
        for second in 0..first {
            for value in 0..=0xFFFF_u16 {
                let mut header = base;
                [header[second], header[first]] = value.to_be_bytes();
                for rule in 0..2 {
                    header_crc(tally, random, rule, header);
                }
            }
        }
    }
    for _ in 0..RANDOM {
        let rule = match random.below(20) {
            0 => 2 + random.below(254),
            _ => random.below(2),
        };
        let header = std::array::from_fn(|_| random.octet());
        header_crc(tally, random, rule as u8, header);
    }
}

// One header check.
fn header_crc(tally: &mut Tally, random: &mut Random, rule: u8, header: [u8; 5]) {
    let mut crc = Lent::<u8>::new(1, random);
    let answer = unsafe { lefkanu_calculate_header_crc(rule, &header, crc.pointer()) };
    let named = Rule::of(rule);
    tally.compare(Call {
        answer,
        lent: &mut [&mut crc],
        model: model(named.map(|rule| usize::from(rule.header_check(header)))),
        rust: match named {
            Ok(Rule::House) => Rust::whole(Ok(usize::from(House.header_check(header)))),
            _ => Rust::Silent,
        },
        input: &|| format!("rule {rule}, {}", hex(&header)),
    });
}

// All short data; data of every length up to 600, and random ones; a good frame, check and all; long
// ones.
pub fn data_crc(tally: &mut Tally, random: &mut Random) {
    let mut both = |random: &mut Random, data: &[u8]| {
        for rule in 0..2 {
            crc16(tally, random, rule, data);
        }
    };
    short(random, &mut both);
    changed(
        &[0x01, 0x22, 0x30, 0x55, 0xFF, 0x00, 0x00, 0x81],
        random,
        &mut both,
    );
    for length in (3..=600).chain(LONGEST) {
        for _ in 0..4 {
            let data = random.octets(length);
            both(random, &data);
        }
    }
    for _ in 0..RANDOM {
        let length = match random.below(50) {
            0 => random.below(1600),
            _ => 3 + random.below(30),
        };
        let data = random.octets(length);
        both(random, &data);
    }
    for _ in 0..RANDOM / 16 {
        let frame = mstp::good(random);
        both(random, &frame);
        let repeated = vec![one_of(&[0x00, 0x55, 0xFF], random); random.below(600)];
        both(random, &repeated);
    }
    for rule in 2..=255 {
        for length in 0..20 {
            let data = random.octets(length);
            crc16(tally, random, rule, &data);
        }
    }
}

// One data check.
fn crc16(tally: &mut Tally, random: &mut Random, rule: u8, data: &[u8]) {
    let mut crc = Lent::<u16>::new(1, random);
    let answer = unsafe { lefkanu_crc16_mstp(rule, data.as_ptr(), data.len(), crc.pointer()) };
    let named = Rule::of(rule);
    tally.compare(Call {
        answer,
        lent: &mut [&mut crc],
        model: model(named.map(|rule| usize::from(rule.data_check(data)))),
        rust: match named {
            Ok(Rule::House) => Rust::whole(Ok(usize::from(House.data_check(data)))),
            _ => Rust::Silent,
        },
        input: &|| format!("rule {rule}, {}", hex(data)),
    });
}
