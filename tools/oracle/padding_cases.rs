// The cases of the padding search, octet by octet.

use shared::octets::{then, with};
use shared::random::Random;

use crate::analysis_list::padding;
use crate::list::List;
use crate::statistics_cases::{repeats, runs};

// The most octets of a case.
const MOST: usize = 64;

// What runs are made of.
const VALUES: [u8; 3] = [0x00, 0x41, 0xFF];

// Adds them all; samples are among them.
pub fn cases(list: &mut List, samples: &[Vec<u8>], random: &mut Random) {
    few_octets(list);
    equal_octets(list);
    two_runs(list);
    broken_runs(list);
    let short = samples.iter().filter(|octets| octets.len() <= MOST);
    short.for_each(|octets| padding(list, octets));
    random_octets(list, random);
}

// No octet, one, and two, equal or not.
fn few_octets(list: &mut List) {
    padding(list, &[]);
    for first in VALUES {
        padding(list, &[first]);
        for second in VALUES {
            padding(list, &[first, second]);
        }
    }
}

// Equal octets alone, and with another at index 0.
fn equal_octets(list: &mut List) {
    for octet in VALUES {
        padding(list, &[octet; 13]);
        padding(list, &with(&[octet; 13], 0, 0x80));
    }
}

// A run of 3 to 5 octets at the end, behind none, one or two others, index 0 equal to it or not; and
// the same in the middle, with another run behind it.
fn two_runs(list: &mut List) {
    for octet in VALUES {
        for count in 3..=5 {
            for front in [&[][..], &[octet], &[0x80], &[octet, 0x80], &[0x80, octet]] {
                let octets = then(front, &vec![octet; count]);
                padding(list, &octets);
                padding(list, &then(&octets, &vec![0x7F; 8 - count]));
            }
        }
    }
}

// A run that another octet breaks, and that starts anew.
fn broken_runs(list: &mut List) {
    for first in [1, 2, 4, 6] {
        for second in [1, 3, 4, 5] {
            padding(list, &runs(&[(0x00, first), (0x01, 1), (0x00, second)]));
        }
    }
}

// Random octets from small alphabets with long repeats.
fn random_octets(list: &mut List, random: &mut Random) {
    for _ in 0..100 {
        let mut octets = repeats(random);
        octets.truncate(MOST);
        padding(list, &octets);
    }
}
