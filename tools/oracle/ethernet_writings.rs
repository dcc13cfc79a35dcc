// The cases of writing Ethernet frames.

use shared::model::ethernet::{size, Form};
use shared::random::Random;

use crate::ethernet_list::{pairs, writing, STATIONS};
use crate::list::List;

// Adds them all.
pub fn cases(list: &mut List, form: Form, random: &mut Random) {
    addresses(list, form);
    short_payloads(list, form, random);
    long_payloads(list, form, random);
    if form == Form::Length {
        high_octets(list, random);
    }
}

// All pairs of addresses.
fn addresses(list: &mut List, form: Form) {
    for addresses in pairs() {
        writing(list, form, addresses, &[0x01, 0x22, 0x30], 60);
    }
}

// Payloads with padding behind them and without, into outputs of the frame's size and others.
fn short_payloads(list: &mut List, form: Form, random: &mut Random) {
    for count in (0..=4).chain(40..=46).chain([100]) {
        let payload = random.octets(count);
        let size = size(count);
        for output in [size, size - 1, size + 1, 0, 16, 59, 60, 61, 1514] {
            writing(list, form, STATIONS, &payload, output);
        }
    }
}

// Payloads around the limit and beyond, where question 24 comes before 25; few, for they are long.
fn long_payloads(list: &mut List, form: Form, random: &mut Random) {
    for (count, outputs) in [
        (1400, &[1416, 1417][..]),
        (1496, &[0, 1512, 1513, 1514]),
        (1497, &[60, 1513, 1514, 1515]),
        (1498, &[0, 1514, 1515]),
        (1499, &[60, 1516]),
        (1600, &[0, 1617]),
        (65000, &[0, 60, 1514]),
    ] {
        let payload = random.long(count);
        for &output in outputs {
            writing(list, form, STATIONS, &payload, output);
        }
    }
    writing(list, form, STATIONS, &random.octets(1497), 1514);
}

// Payloads around those that a length of one octet can count, and a length whose octets are equal.
fn high_octets(list: &mut List, random: &mut Random) {
    for count in (251..=258).chain([508, 509, 511]) {
        let payload = random.octets(count);
        let size = size(count);
        for output in [size, size - 1, size + 1] {
            writing(list, Form::Length, STATIONS, &payload, output);
        }
    }
}
