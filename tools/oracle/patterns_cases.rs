// The cases of patterns.

use shared::model::patterns::found;
use shared::octets::{of_size, then, with};
use shared::random::Random;

use crate::analysis_list::patterns;
use crate::list::List;
use crate::statistics_cases::{repeats, LONG};

// The octets in front that are a sequence.
const SEQUENCE: [u8; 8] = [0, 1, 2, 3, 4, 5, 6, 7];

// The most numbers that a list is lent with.
const MOST: usize = 4096;

// Adds them all.
pub fn cases(list: &mut List, random: &mut Random) {
    equal_octets(list);
    paddings(list);
    texts(list);
    text_borders(list);
    zeros(list);
    sequences(list);
    for octets in together() {
        all_sizes(list, &octets);
    }
    many_texts(list);
    long_inputs(list);
    random_octets(list, random);
}

// Adds the patterns with a list of just the size that they need, or of one or two more.
fn fitting(list: &mut List, octets: &[u8]) {
    let exact = 4 * found(octets).len();
    patterns(list, octets, exact + octets.len() % 3);
}

// Adds the patterns with lists too small, of just the size that they need, and larger.
fn all_sizes(list: &mut List, octets: &[u8]) {
    let exact = 4 * found(octets).len();
    for size in [0, 3, 4, 5] {
        patterns(list, octets, size);
    }
    if exact > 0 {
        patterns(list, octets, exact - 1);
    }
    for size in [exact, exact + 1, exact + 4] {
        patterns(list, octets, size);
    }
}

// Equal octets alone: padding back to index 1, also with another octet at index 0. Trials e to g are
// among them.
fn equal_octets(list: &mut List) {
    for octet in [0x00, 0x1F, 0x20, 0x41, 0x7E, 0x7F, 0xFF] {
        for count in 0..=13 {
            let octets = vec![octet; count];
            fitting(list, &octets);
            if count > 0 {
                fitting(list, &with(&octets, 0, 0x80));
            }
        }
    }
}

// Up to six equal octets at the end behind others, and with another octet behind them.
fn paddings(list: &mut List) {
    for front in [
        &[0x80, 0x00][..],
        &[0x00, 0x80],
        &[0x80, 0xFF, 0x80],
        &[0x41, 0x42],
    ] {
        for octet in [0x00, 0x41, 0xFF] {
            for count in 1..=6 {
                let octets = then(front, &vec![octet; count]);
                fitting(list, &octets);
                patterns(list, &then(&octets, &[0x80]), 8);
            }
        }
    }
}

// Texts of 3 to 5 octets in front, in the middle and at the end; two of them with one or two octets
// between.
fn texts(list: &mut List) {
    let text = b"Fan 1";
    for count in 3..=5 {
        let text = &text[..count];
        for front in [&[][..], &[0x00], &[0x00, 0xFF]] {
            for end in [&[][..], &[0x00], &[0xFF, 0x00]] {
                fitting(list, &[front, text, end].concat());
            }
        }
        for second in 3..=5 {
            for between in [&[0x00][..], &[0x7F], &[0x1F, 0x80]] {
                fitting(list, &[text, between, &b"T2.5C"[..second]].concat());
            }
        }
    }
}

// Each octet at a border of text, before, inside and behind a text.
fn text_borders(list: &mut List) {
    for octet in [0x00, 0x1F, 0x20, 0x21, 0x7D, 0x7E, 0x7F, 0x80, 0x9F, 0xFF] {
        for place in 0..5 {
            fitting(list, &with(b"abcde", place, octet));
        }
        fitting(list, &[octet; 4]);
        fitting(list, &[&[octet; 2][..], b"ab", &[octet; 1]].concat());
    }
}

// 6 to 10 zeros before paddings of 3 to 5 octets; before 4 also with another octet among the zeros.
// Trial h is among them.
fn zeros(list: &mut List) {
    for count in 6..=10 {
        let zeros = vec![0x00; count];
        for octet in [0x01, 0x41, 0xFF] {
            for padding in 3..=5 {
                fitting(list, &then(&zeros, &vec![octet; padding]));
            }
            for (place, other) in [(0, 0x02), (count / 2, 0x80), (count - 1, 0x01)] {
                fitting(list, &then(&with(&zeros, place, other), &[octet; 4]));
            }
        }
    }
}

// The sequence, cut, alone, changed, not in front, and with more behind it.
fn sequences(list: &mut List) {
    for count in 0..=8 {
        fitting(list, &SEQUENCE[..count]);
        fitting(list, &then(&SEQUENCE[..count], &[0x08, 0x09]));
    }
    for place in 0..8 {
        fitting(list, &with(&SEQUENCE, place, 0x10));
    }
    fitting(list, &then(&[0x00], &SEQUENCE));
    fitting(list, &then(&SEQUENCE, &SEQUENCE));
    for count in 3..=5 {
        fitting(list, &then(&SEQUENCE, &vec![0x07; count]));
        fitting(list, &then(&SEQUENCE, &vec![0x41; count]));
    }
}

// The patterns together: none or up to four texts, with and without a sequence and a padding; zeros
// and a padding that is a text or none. The most are six.
pub fn together() -> Vec<Vec<u8>> {
    let mut all = Vec::new();
    for front in [&[0x80][..], &SEQUENCE] {
        for count in 0..=4 {
            let texts = b"\xC0Room\xC1Pump\xC2Vent\xC3Flow".split_at(5 * count).0;
            for end in [&[0x90][..], &[0x90; 5], &[0x61; 4]] {
                all.push([front, texts, end].concat());
            }
        }
    }
    for end in [[0x90; 4], [0x61; 4], [0x00; 4]] {
        all.push(then(&[0x00; 8], &end));
    }
    all
}

// Texts with one octet between, so many that an answer doesn't show all of them.
fn many_texts(list: &mut List) {
    for (count, octet) in [(13, 0x00), (14, 0x7F), (15, 0x80), (100, 0x1F), (400, 0xFF)] {
        let octets = [0x41, 0x42, 0x43, 0x44, octet].repeat(count);
        let exact = 4 * count;
        for size in [0, exact - 1, exact, exact + 1] {
            patterns(list, &octets, size);
        }
    }
    let octets = [0x41, 0x42, 0x43, 0x44, 0x00].repeat(20);
    patterns(list, &octets, MOST);
}

// Many zeros, alone and behind some octets, with lists of several sizes.
fn long_inputs(list: &mut List) {
    let text = then(&SEQUENCE, b"Dryer\x00Damper");
    for front in [&[][..], &[0x01], &[0x00, 0xFF, 0xFF], &text] {
        for count in LONG {
            for size in [0, 4, 15, 16] {
                patterns(list, &of_size(front, count), size);
            }
        }
    }
    patterns(list, &[0x00; 65_535], MOST);
}

// Random octets from small alphabets with long repeats, with lists of random sizes.
fn random_octets(list: &mut List, random: &mut Random) {
    for _ in 0..150 {
        let octets = repeats(random);
        let size = random.below(21);
        patterns(list, &octets, size);
        patterns(list, &octets, 4 * found(&octets).len());
    }
}
