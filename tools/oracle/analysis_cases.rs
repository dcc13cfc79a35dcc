// The cases of the analysis. The samples are analysed too.

use shared::model::bvlc::message;
use shared::model::ethernet::{written as ethernet_written, Form::EtherType};
use shared::model::mstp::written;
use shared::model::patterns::found;
use shared::octets::{of_size, then, with};
use shared::random::Random;

use crate::analysis_list::analysis;
use crate::check::{Rule, RULES};
use crate::ethernet_list::STATIONS;
use crate::list::List;
use crate::mstp_list::{DATA, REQUEST, SLAVE, TOKEN};
use crate::patterns_cases::together;
use crate::statistics_cases::{repeats, LONG};

// Data with two texts and zeros at the end.
const TEXTS: &[u8] = b"\x01Dryer 3\x00Damper\x00\x00\x00\x00\x00";

// Adds them all.
pub fn cases(list: &mut List, random: &mut Random) {
    fronts(list);
    good_frames(list);
    patterns_together(list);
    long_inputs(list);
    random_frames(list, random);
    random_octets(list, random);
}

// Adds the analysis with lists of just the size that it needs, one less and some more.
fn all_sizes(list: &mut List, rule: Rule, octets: &[u8]) {
    let exact = 4 * found(octets).len();
    if exact > 0 {
        analysis(list, rule, octets, exact - 1);
    }
    analysis(list, rule, octets, exact);
    analysis(list, rule, octets, exact + 6);
}

// Every front of a good data frame.
fn fronts(list: &mut List) {
    for rule in RULES {
        let good = written(rule, REQUEST, &DATA);
        for count in 0..=good.len() {
            analysis(list, rule, &good[..count], 4);
        }
    }
}

// Good frames of each kind with texts and padding in them, one of them to a slave; also with an octet
// changed.
fn good_frames(list: &mut List) {
    for rule in RULES {
        let mstp = written(rule, REQUEST, TEXTS);
        let frames = [
            mstp.clone(),
            then(&mstp, &[0xFF; 6]),
            written(rule.other(), REQUEST, TEXTS),
            written(rule, TOKEN, &[]),
            message(0x01, TEXTS),
            message(0x0B, TEXTS),
            ethernet_written(EtherType, STATIONS, TEXTS),
            written(rule, [0x06, SLAVE, 0x05], TEXTS),
        ];
        for octets in frames {
            all_sizes(list, rule, &octets);
            all_sizes(list, rule, &with(&octets, 0, 0x41));
            let last = octets.len() - 1;
            all_sizes(list, rule, &with(&octets, last, 0x41));
        }
    }
}

// Octets with every choice of patterns.
fn patterns_together(list: &mut List) {
    for octets in together() {
        all_sizes(list, Rule::House, &octets);
    }
}

// Many octets, zeros at their end, of each kind and of none.
fn long_inputs(list: &mut List) {
    let ethernet = ethernet_written(EtherType, STATIONS, TEXTS);
    for rule in RULES {
        let token = written(rule, TOKEN, &[]);
        for front in [&[][..], &token, &[0x81, 0x0B, 0xFF, 0xFF], &ethernet] {
            for count in LONG {
                analysis(list, rule, &of_size(front, count), 3);
                analysis(list, rule, &of_size(front, count), 12);
            }
        }
    }
}

// Random frames, as they are and with one to three changes.
fn random_frames(list: &mut List, random: &mut Random) {
    for rule in RULES {
        for _ in 0..20 {
            let three = [random.octet() % 8, random.octet(), random.octet()];
            let mut octets = written(rule, three, &repeats(random));
            let size = random.below(13);
            analysis(list, rule, &octets, size);
            random.damage(&mut octets);
            analysis(list, rule, &octets, size);
        }
    }
}

// Random octets from small alphabets with long repeats, alone and in a message.
fn random_octets(list: &mut List, random: &mut Random) {
    for _ in 0..30 {
        let octets = repeats(random);
        let size = random.below(17);
        analysis(list, Rule::House, &octets, size);
        analysis(list, Rule::AnnexG, &message(0x0C, &octets), size);
    }
}
