// The list's MS/TP part: check octets, reading and writing of frames. A case and its answer are a
// line each:
//
//     HR OCTETS                    header check of five octets
//      CCCC                          as an array and as a slice
//     DR OCTETS                    data check
//      CCCC                          as a number
//     RR OCTETS                    reading
//     F TTDDSSLLLLHH CCCC DATA       the header; the data check, or `none`; the data
//     EX nn                          refused, and no data
//     WR OCTETS                    writing of type, destination, source and then the data, into an
//                                  output that was a5
//     F NNNN OUTPUT                  the count; the output, and 16 octets behind it
//     EX nn OUTPUT                   refused; the same octets
//
// In a case nothing stands between the words; OCTETS: see list.rs. The second letter is the rule, `h`
// house or `g` Annex G. X is the Rust's error, `I` InvalidFrame or `C` CrcError; `N` where it has no
// answer, as to question 8. nn is the first of document 01's questions that fails.

use shared::model::checks::Checks;
use shared::model::mstp::{self, Frame};
use shared::octets::hex;
use shared::rust;

use crate::answer::{compare, output, refusal};
use crate::check::Rule;
use crate::list::{front, List};

// Document 01's trial octets, header (type, destination, source, length) and data.
pub const HEADER: [u8; 5] = [0x00, 0x10, 0x05, 0x00, 0x00];
pub const DATA: [u8; 3] = [0x01, 0x22, 0x30];

// Type, destination and source of that token, and of a data frame between the same stations.
pub const TOKEN: [u8; 3] = [0x00, 0x10, 0x05];
pub const REQUEST: [u8; 3] = [0x05, 0x10, 0x05];

// An address of a slave.
pub const SLAVE: u8 = 200;

// Adds the header check of five octets.
pub fn header(list: &mut List, rule: Rule, five: [u8; 5]) {
    let check = rule.header_check(five);
    let answer = format!(" {check:02x}{check:02x}");
    list.add(['H', rule.letter()], &five, 0, &answer);
}

// Adds the data check of some octets.
pub fn data(list: &mut List, rule: Rule, octets: &[u8]) {
    let answer = format!(" {:04x}", rule.data_check(octets));
    list.add(['D', rule.letter()], octets, 0, &answer);
}

// Adds the reading of some octets. Panics where the Rust, which has the house rule, reads another.
pub fn reading(list: &mut List, rule: Rule, octets: &[u8]) {
    let answer = mstp::read(rule, octets);
    if rule == Rule::House {
        compare("reading", octets, rust::mstp::read(octets), &answer);
    }
    let text = match answer {
        Err(question) => format!("{} ", refusal(question)),
        Ok(frame) => format!("F {}", text(&frame)),
    };
    list.add(['R', rule.letter()], octets, 0, &text);
}

// A frame's three tokens.
fn text(frame: &Frame) -> String {
    let check = match frame.data_check {
        Some(check) => format!("{check:04x}"),
        None => "none".to_string(),
    };
    let Frame {
        three,
        data,
        header_check,
        ..
    } = frame;
    let (three, length, data) = (hex(three), data.len(), front(data));
    format!("{three}{length:04x}{header_check:02x} {check} {data}")
}

// Adds the writing of type, destination, source and data into an output of a size. Panics where the
// Rust writes other octets.
pub fn writing(list: &mut List, rule: Rule, three: [u8; 3], data: &[u8], size: usize) {
    let write = |room| mstp::write(rule, three, data, room);
    if rule == Rule::House {
        let rust = rust::mstp::write(three, data).expect("a type of 0 to 7");
        compare("writing", data, rust, &write(usize::MAX));
    }
    let octets = [&three, data].concat();
    list.add(
        ['W', rule.letter()],
        &octets,
        size,
        &output(write(size), size),
    );
}
