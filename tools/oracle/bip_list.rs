// The list's BVLC part: reading and writing of headers, and the NPDU of a message. A case and its
// answer are a line each:
//
//     B- OCTETS                    reading of the header in front
//     F TTFFLLLL                     type, function, length
//     EX nn                          refused
//     N- OCTETS                    the NPDU of a message
//     N PART                         the NPDU
//     T TTTT                         time to live, and an empty part
//     O                              no NPDU: an empty part
//     EX nn                          refused, and an empty part
//     C- OCTETS                    writing of function and length, into an output that was a5
//     F 0004 OUTPUT                  the count; the output, and 16 octets behind it
//     EX nn OUTPUT                   refused; the same octets
//
// In a case nothing stands between the words; OCTETS: see list.rs. Before an empty part there is a
// space too, at the line's end. X is `I`, the Rust's InvalidFrame, or `N` where it has no answer, as
// to question 16. nn is the first of document 01's questions that fails.

use shared::model::bvlc::{self, Carried, Header};
use shared::octets::hex;
use shared::rust;

use crate::answer::{compare, output, refusal};
use crate::list::{front, List};

// Octets that stand behind a header.
pub const BEHIND: [u8; 8] = [0x01, 0x22, 0x30, 0x43, 0x54, 0x65, 0x76, 0x87];

// Adds the reading of the header in front of some octets. Panics where the Rust reads another.
pub fn header(list: &mut List, octets: &[u8]) {
    let answer = bvlc::read(octets);
    compare("reading", octets, rust::bvlc::read(octets), &answer);
    let text = match answer {
        Err(question) => refusal(question),
        Ok(header) => format!("F {}", hex(&header.octets())),
    };
    list.add(['B', '-'], octets, 0, &text);
}

// Adds the NPDU of some octets. Panics where the Rust finds something else.
pub fn npdu(list: &mut List, octets: &[u8]) {
    let answer = bvlc::process(octets);
    let rust = rust::bvlc::Link::new().process(octets);
    compare("processing", octets, rust, &answer);
    let text = match answer {
        Err(question) => format!("{} ", refusal(question)),
        Ok(Carried::Npdu(npdu)) => format!("N {}", front(npdu)),
        Ok(Carried::TimeToLive(seconds)) => format!("T {seconds:04x} "),
        Ok(Carried::NoNpdu) => "O ".to_string(),
    };
    list.add(['N', '-'], octets, 0, &text);
}

// Adds both.
pub fn both(list: &mut List, octets: &[u8]) {
    header(list, octets);
    npdu(list, octets);
}

// Adds the writing of a header into an output of a size. Panics where the Rust writes another.
pub fn writing(list: &mut List, header: &Header, size: usize) {
    let [_, three @ ..] = header.octets();
    let rust = rust::bvlc::write(header).expect("a function of 00 to 0C");
    compare(
        "writing",
        &three,
        Ok(rust),
        &bvlc::write(header, usize::MAX),
    );
    list.add(
        ['C', '-'],
        &three,
        size,
        &output(bvlc::write(header, size), size),
    );
}
