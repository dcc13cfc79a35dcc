// The cases of MS/TP check octets.

use shared::random::Random;

use crate::check::Rule;
use crate::list::List;
use crate::mstp_list::{data, header, DATA, HEADER};

// Adds them all.
pub fn cases(list: &mut List, rule: Rule, random: &mut Random) {
    headers(list, rule, random);
    datas(list, rule, random);
}

// Every value of each octet of two headers, and random headers, all of types 0 to 7.
fn headers(list: &mut List, rule: Rule, random: &mut Random) {
    header(list, rule, HEADER);
    for five in [HEADER, random_header(random)] {
        for place in 0..5 {
            let last = if place == 0 { 7 } else { 255 };
            for octet in 0..=last {
                let mut changed = five;
                changed[place] = octet;
                header(list, rule, changed);
            }
        }
    }
    for _ in 0..100 {
        header(list, rule, random_header(random));
    }
}

// Five random octets, the type 0 to 7.
fn random_header(random: &mut Random) -> [u8; 5] {
    let mut five = [0; 5];
    five.fill_with(|| random.octet());
    five[0] %= 8;
    five
}

// The trial and its prefixes, all single octets, lengths up to 16, around the limits, and 65,535.
fn datas(list: &mut List, rule: Rule, random: &mut Random) {
    for count in 0..=DATA.len() {
        data(list, rule, &DATA[..count]);
    }
    for octet in 0..=255 {
        data(list, rule, &[octet]);
    }
    for count in 2..=16 {
        data(list, rule, &random.octets(count));
    }
    for count in [31, 32, 33, 255, 256, 257, 499, 500, 501, 502, 1024] {
        data(list, rule, &random.octets(count));
        data(list, rule, &vec![random.octet(); count]);
    }
    data(list, rule, &vec![0x00; 0xFFFF]);
    data(list, rule, &random.long(0xFFFF));
}
