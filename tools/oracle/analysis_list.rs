// The second list: findings, statistics, patterns, analysis and the padding search. A case and its
// answer are a line each:
//
//     MR SIZE ZEROS COUNT OCTETS   the MS/TP validator
//     I- SIZE ZEROS COUNT OCTETS   the IP validator
//     E- SIZE ZEROS COUNT OCTETS   the Ethernet validator of validation.rs
//     FR SIZE ZEROS COUNT OCTETS   the validator for all kinds
//     FINDINGS                       its result
//     S- SIZE ZEROS COUNT OCTETS   statistics
//     F STATISTICS                   counted
//     E nn STATISTICS                refused; zeros
//     P- SIZE ZEROS COUNT OCTETS   patterns
//     F NNNN LIST                    the count of entries; the lent list
//     E nn LIST                      refused; the same
//     AR SIZE ZEROS COUNT OCTETS   analysis
//     F NNNN FINDINGS STATISTICS LIST
//                                    the count of entries; all three
//     E nn FINDINGS STATISTICS LIST
//                                    refused; an invalid result of zeros, zeros; the lent list
//     W- SIZE ZEROS COUNT OCTETS   the padding search, octet by octet
//     STEPS                          after each octet; of no octets an empty line
//
// In a case nothing stands between the words. R is the rule, `h` house or `g` Annex G. SIZE, ZEROS
// and COUNT have four digits: how many numbers the lent list has, how many zeros stand behind the
// octets told, how many octets are told. Zeros are counted so only where there are more than 2,000
// octets in all; at most 2,000 are told. nn is the first of document 01's questions that fails.
//
//     FINDINGS     V K SSSSSS E W and nine entries, K FFFFFF SSSSSS each: `v` valid or `x`; link
//                  kind (0 none, 1 IP, 2 Ethernet, 3 MS/TP); size; counts of errors and warnings;
//                  seven errors, two warnings: kind and two numbers, 0 where unused
//     STATISTICS   ZZZZZZ HHHHHH RR LLLLLL SSSSSS, then VV:CCCCCC for each octet value that is
//                  there: zeros; octets of 80 or more; octet, length and start of the longest run;
//                  value, count
//     LIST         the lent list, which was a5a5a5a5, and 4 numbers behind it: all of these, or the
//                  first 60, eight digits each
//     STEPS        for each octet RRRRRR PPPPPP, a space before each: the run after it, and the
//                  padding's length, 0 where there is none

use bacnet::datalink::validation::{
    validate_bacnet_ip_frame, validate_ethernet_frame, validate_frame, validate_mstp_frame,
};
use shared::model::validators;
use shared::octets::hex;

use crate::analysis_answers;
use crate::check::Rule;
use crate::list::{List, MOST};

// Counts of octets around the limits of all validators.
pub const FEW: [usize; 15] = [3, 4, 5, 7, 8, 9, 13, 14, 15, 16, 17, 18, 59, 60, 61];
pub const MANY: [usize; 12] = [
    500, 501, 502, 510, 511, 512, 1496, 1497, 1498, 1513, 1514, 1515,
];
pub const VERY_MANY: [usize; 3] = [65_534, 65_535, 65_536];

// Adds the MS/TP validator's answer to some octets.
pub fn mstp(list: &mut List, rule: Rule, octets: &[u8]) {
    let (findings, rust) = (validators::mstp(rule, octets), validate_mstp_frame(octets));
    let answer = analysis_answers::findings(rule, octets, &findings, &rust);
    add(list, ['M', rule.letter()], octets, 0, &answer);
}

// Adds the IP validator's answer to some octets.
pub fn ip(list: &mut List, octets: &[u8]) {
    let (findings, rust) = (validators::ip(octets), validate_bacnet_ip_frame(octets));
    let answer = analysis_answers::findings(Rule::House, octets, &findings, &rust);
    add(list, ['I', '-'], octets, 0, &answer);
}

// Adds the Ethernet validator's answer to some octets.
pub fn ethernet(list: &mut List, octets: &[u8]) {
    let (findings, rust) = (
        validators::ethernet(octets),
        validate_ethernet_frame(octets),
    );
    let answer = analysis_answers::findings(Rule::House, octets, &findings, &rust);
    add(list, ['E', '-'], octets, 0, &answer);
}

// Adds the answer of the validator for all kinds to some octets.
pub fn frame(list: &mut List, rule: Rule, octets: &[u8]) {
    let (findings, rust) = (validators::frame(rule, octets), validate_frame(octets));
    let answer = analysis_answers::findings(rule, octets, &findings, &rust);
    add(list, ['F', rule.letter()], octets, 0, &answer);
}

// Adds the statistics of some octets.
pub fn statistics(list: &mut List, octets: &[u8]) {
    let answer = analysis_answers::statistics(octets);
    add(list, ['S', '-'], octets, 0, &answer);
}

// Adds the patterns in some octets, with a lent list of a size.
pub fn patterns(list: &mut List, octets: &[u8], size: usize) {
    let answer = analysis_answers::patterns(octets, size);
    add(list, ['P', '-'], octets, size, &answer);
}

// Adds the analysis of some octets, with a lent list of a size.
pub fn analysis(list: &mut List, rule: Rule, octets: &[u8], size: usize) {
    let answer = analysis_answers::analysis(rule, octets, size);
    add(list, ['A', rule.letter()], octets, size, &answer);
}

// Adds the padding search in some octets, octet by octet.
pub fn padding(list: &mut List, octets: &[u8]) {
    let answer = analysis_answers::padding(octets);
    add(list, ['W', '-'], octets, 0, &answer);
}

// Adds a case with its answer.
fn add(list: &mut List, letters: [char; 2], octets: &[u8], size: usize, answer: &str) {
    let [kind, rule] = letters;
    let zeros = left_out(octets);
    let told = &octets[..octets.len() - zeros];
    assert!(told.len() <= MOST && size <= 0x1000, "a case too long");
    let numbers = format!("{size:04x}{zeros:04x}{:04x}", told.len());
    list.add_line(format!("{kind}{rule}{numbers}{}", hex(told)), answer);
}

// How many zeros at the end of some octets are counted, not told.
fn left_out(octets: &[u8]) -> usize {
    if octets.len() <= MOST {
        return 0;
    }
    let zeros = octets.iter().rev().take_while(|octet| **octet == 0).count();
    zeros.min(0xFFFF)
}
