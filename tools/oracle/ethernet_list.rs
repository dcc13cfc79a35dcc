// The list's Ethernet part: reading, validating and writing of frames. A case and its answer are a
// line each:
//
//     E- OCTETS                    reading in form EtherType
//     L- OCTETS                    reading in form Length
//     F DDDDDDDDDDDD SSSSSSSSSSSS PAYLOAD
//                                    destination; source; payload
//     EX nn 000000000000 000000000000
//                                    refused; two addresses of zeros, and no payload
//     V- OCTETS                    the file's own validator
//     F                              content
//     EX nn                          refused
//     G- OCTETS                    writing of destination, source and then the payload, in form
//                                  EtherType, into an output that was a5
//     M- OCTETS                    the same in form Length
//     F NNNN OUTPUT                  the count; the output, and 16 octets behind it
//     EX nn OUTPUT                   refused; the same octets
//
// In a case nothing stands between the words; OCTETS: see list.rs. Before an empty payload there is a
// space too, at the line's end. X is `I`, the Rust's InvalidFrame, or `N` where a question is none of
// the Rust's: 25, 61 and 62. nn is the first question that fails. The Rust has no form Length, so the
// answers to L and M are the model's alone.

use shared::model::ethernet::{self, Addresses, Form, Frame};
use shared::octets::hex;
use shared::rust;

use crate::answer::{compare, output, refusal};
use crate::list::{front, List};

// Two stations.
pub const STATIONS: Addresses = [
    [0x00, 0x11, 0x22, 0x33, 0x44, 0x55],
    [0x66, 0x77, 0x88, 0x99, 0xAA, 0xBB],
];

// Stations, the broadcast address and zeros, each as destination with each as source.
pub fn pairs() -> Vec<Addresses> {
    let [one, other] = STATIONS;
    let all = [one, other, [0xFF; 6], [0x00; 6]];
    let with_all = |destination| all.map(|source| [destination, source]);
    all.map(with_all).concat()
}

// Adds the reading of some octets. Panics where the Rust, which has form EtherType, reads something
// else.
pub fn reading(list: &mut List, form: Form, octets: &[u8]) {
    let answer = ethernet::read(form, octets);
    let kind = match form {
        Form::EtherType => {
            compare("reading", octets, rust::ethernet::read(octets), &answer);
            'E'
        }
        Form::Length => 'L',
    };
    let text = match answer {
        Ok(frame) => format!("F {}", text(&frame)),
        Err(question) => {
            let none = Frame {
                addresses: [[0; 6]; 2],
                payload: &[],
            };
            format!("{} {}", refusal(question), text(&none))
        }
    };
    list.add([kind, '-'], octets, 0, &text);
}

// A frame's three tokens.
fn text(frame: &Frame) -> String {
    let [destination, source] = frame.addresses.map(|address| hex(&address));
    format!("{destination} {source} {}", front(frame.payload))
}

// Adds the validator's answer to some octets. Panics where the Rust has another.
pub fn validating(list: &mut List, octets: &[u8]) {
    let answer = ethernet::validate(octets);
    compare(
        "validating",
        octets,
        rust::ethernet::validate(octets),
        &answer,
    );
    let text = answer.map_or_else(refusal, |()| "F".to_string());
    list.add(['V', '-'], octets, 0, &text);
}

// Adds the reading in form EtherType and the validator's answer.
pub fn both(list: &mut List, octets: &[u8]) {
    reading(list, Form::EtherType, octets);
    validating(list, octets);
}

// Adds the writing of addresses and payload into an output of a size. Panics where the Rust, which
// has form EtherType, writes other octets.
pub fn writing(list: &mut List, form: Form, addresses: Addresses, payload: &[u8], size: usize) {
    let write = |room| ethernet::write(form, addresses, payload, room);
    let kind = match form {
        Form::EtherType => {
            let rust = rust::ethernet::write(addresses, payload);
            compare("writing", payload, rust, &write(usize::MAX));
            'G'
        }
        Form::Length => 'M',
    };
    let octets = [&addresses.concat(), payload].concat();
    list.add([kind, '-'], &octets, size, &output(write(size), size));
}
