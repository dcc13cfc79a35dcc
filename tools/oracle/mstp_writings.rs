// The cases of writing MS/TP frames.

use shared::model::mstp::size;
use shared::random::Random;

use crate::check::Rule;
use crate::list::List;
use crate::mstp_list::{writing, DATA, REQUEST, TOKEN};

// Adds them all.
pub fn cases(list: &mut List, rule: Rule, random: &mut Random) {
    types_and_addresses(list, rule);
    lengths(list, rule, random);
    small_outputs(list, rule, random);
}

// All types; addresses around the limits of masters and slaves.
fn types_and_addresses(list: &mut List, rule: Rule) {
    for data in [&[][..], &DATA] {
        let output = size(data.len());
        for kind in 0..8 {
            writing(list, rule, [kind, 0x10, 0x05], data, output);
        }
        for destination in [0, 127, 128, 254, 255] {
            for source in [0, 127, 128, 254, 255] {
                writing(list, rule, [0x06, destination, source], data, output);
            }
        }
    }
}

// Data lengths up to 16, around the limits and beyond, with output of the frame's size and more.
fn lengths(list: &mut List, rule: Rule, random: &mut Random) {
    let limits = (254..=258).chain(499..=503).chain([510, 1000]);
    for length in (0..=16).chain(limits) {
        let data = random.long(length);
        for more in [0, 1, 16] {
            writing(list, rule, REQUEST, &data, size(length) + more);
        }
    }
    writing(list, rule, REQUEST, &random.octets(501), size(501));
    writing(list, rule, TOKEN, &[], 0xFF00);
}

// Outputs too small for the frame; with 502 data octets question 7 comes first.
fn small_outputs(list: &mut List, rule: Rule, random: &mut Random) {
    for length in [0, 1, 3, 501, 502] {
        let data = random.long(length);
        for output in [0, 7, size(length) - 1] {
            writing(list, rule, REQUEST, &data, output);
        }
    }
}
