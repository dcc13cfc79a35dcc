// Every function of the library that has input: its comparison, and which answers must come up in it.

use ffi::{lefkanu_layout_version, LAYOUT_VERSION, NONE, NO_CASE};
use shared::random::Random;

use crate::tally::Tally;
use crate::{
    analysis, bip, check_tables, checks, errors, ethernet, finder, log, mstp, padding, readings,
    validation,
};

pub struct Function {
    // The name behind `lefkanu_`.
    pub name: &'static str,
    // Its answers, and what its results have: e and w an error and a warning by kind and reason, n
    // a count of errors, l a link, m what a message carries, p a pattern; r1 a longest run in front,
    // r2 one that starts later, r3 another as long after it; h4608 headers of every type with every
    // pair of a master, a slave and all stations, under both rules; d1 frames that demand 3 speaks of, d2 a
    // report that reaches from the damage over a head; c a run of a state by its count of octets, 5 for
    // all above 4; s1 a step with a first octet, s2 with one that starts the run anew, s3 with the same
    // behind a run of 0, so with a second equal to the first, s4 with the same behind a longer run, s5
    // behind the highest count; u256 checks that use all entries of a table, by the reasons 1 Annex G's
    // and 2 the house rule's; f an answer by the form of Ethernet frames, EtherType or, reason 1, Length; b
    // what is behind the octets that a length counts, 1 nothing, 2 zeros, 3 others; g a random log, 1
    // as it was written, 2 cut at its front, 3 with octets changed, 4 both; t an answer by the time of a
    // record, none or, reason 1, a second, whose octets are not all there for reason 2.
    pub answers: &'static [u8],
    pub sights: &'static str,
    pub compare: fn(&mut Tally, &mut Random),
}

const MSTP_FINDINGS: &str = "e1 e3 e4 e5 e6 e7.1 e8 n0 n6 n7 w3.1 w3.2 h4608";
const IP_FINDINGS: &str = "e1 e2 e3 e5 e8 n0 n4 w4.1 w4.2";
const ETHERNET_FINDINGS: &str = "e1 e2 e7.2 e7.3 n0 n3 w1 w3.3";
const ANY_FINDINGS: &str =
    "e1 e2 e4 e5 e6 e7.1 e7.3 e7.4 e8 l0 l1 l2 l3 n0 n6 w1 w3.1 w3.2 w3.3 w4.1 w4.2 h4608";
const PATTERNS: &str = "p1 p2 p3 p4";
const LONGEST_RUNS: &str = "r1 r2 r3";
const ANALYSIS: &str = "l0 l1 l2 l3 p1 p2 p3 p4 r1 r2 r3 h4608";
const MESSAGES: &str = "m1 m2 m3";
const DEMAND_3: &str = "d1 d2";
const STEPS: &str = "c0 c1 c2 c3 c4 c5 s1 s2 s3 s4 s5";
const STATES: &str = "c0 c1 c2 c3 c4 c5";
const ENTRIES: &str = "u256.1 u256.2";
const FORMS_READ: &str = "f0 f21 f22 f23 f0.1 f21.1 f24.1 f61.1 f62.1 f23.1 b1 b2 b3";
const FORMS_WRITTEN: &str = "f0 f24 f25 f0.1 f24.1 f25.1";
const RECORDS_READ: &str = "g1 g2 g3 g4 t0 t42 t43 t44 t0.1 t43.1 t44.1 t44.2";
const RECORDS_WRITTEN: &str = "t0 t42 t43 t46 t47 t0.1 t42.1 t43.1 t46.1 t47.1";

// Each by its name, answers, what its results have, and comparison.
macro_rules! functions {
    ($($name:literal $answers:expr, $sights:expr, $compare:path;)*) => {
        &[$(
            Function {
                name: $name,
                answers: &$answers,
                sights: $sights,
                compare: $compare,
            },
        )*]
    };
}

pub const ALL: &[Function] = functions! {
    "data_link_error" [0, 1, 2], "", errors::data_link_error;
    "calculate_header_crc" [0, NO_CASE], "", checks::calculate_header_crc;
    "crc16_mstp" [0, NO_CASE], "", checks::data_crc;
    "mstp_decode" [0, 1, 2, 3, 4, 5, 6, NO_CASE], "", mstp::decode;
    "mstp_encode" [0, 7, 8, NO_CASE], "", mstp::encode;
    "bvlc_decode" [0, 11, 12, 13], "", bip::decode;
    "bvlc_encode" [0, 16, NO_CASE], "", bip::encode;
    "process_bvlc_message" [0, 11, 12, 13, 14, 15], MESSAGES, bip::process;
    "ethernet_decode" [0, 21, 22, 23], "", ethernet::decode;
    "ethernet_validate" [0, 21, 24, 22, 23], "", ethernet::validate;
    "ethernet_encode" [0, 24, 25], "", ethernet::encode;
    "validate_mstp_frame" [0, NO_CASE], MSTP_FINDINGS, validation::mstp_frame;
    "validate_bacnet_ip_frame" [0], IP_FINDINGS, validation::bacnet_ip_frame;
    "validate_ethernet_frame" [0], ETHERNET_FINDINGS, validation::ethernet_frame;
    "validate_frame" [0, NO_CASE], ANY_FINDINGS, validation::any_frame;
    "calculate_frame_statistics" [0, 31], LONGEST_RUNS, analysis::frame_statistics;
    "detect_patterns" [0, 31, 32], PATTERNS, analysis::detect_patterns;
    "analyze_frame" [0, 31, 32, NO_CASE], ANALYSIS, analysis::whole_analysis;
    "find_frame" [0, 31, 33, NONE, NO_CASE], "", finder::find_frame;
    "count_frames" [0, 31, NO_CASE], "", readings::count_frames;
    "read_frames" [0, 31, 32, NO_CASE], DEMAND_3, readings::read_frames;
    "read_record" [0, 41, 42, 43, 44, 47, NONE], RECORDS_READ, log::read_record;
    "append" [0, 42, 43, 46, 47, NO_CASE], RECORDS_WRITTEN, log::append;
    "padding_step" [0, NO_CASE], STEPS, padding::step;
    "padding_length" [0, NO_CASE], STATES, padding::length;
    "header_table" [0, NO_CASE], ENTRIES, check_tables::header;
    "data_table" [0, NO_CASE], ENTRIES, check_tables::data;
    "ethernet_decode_form" [0, 21, 22, 23, 24, 61, 62, NO_CASE], FORMS_READ, ethernet::decode_form;
    "ethernet_encode_form" [0, 24, 25, NO_CASE], FORMS_WRITTEN, ethernet::encode_form;
};

// The function that has no input: it is asked once.
const ASKED_ONCE: &str = "layout_version";

// Panics unless the library has the layout that the driver was built for.
pub fn try_layout() {
    let version = unsafe { lefkanu_layout_version() };
    assert_eq!(version, LAYOUT_VERSION, "the layout of liblefkanu.a");
}

// Panics unless these are the functions that the library's C header declares.
pub fn try_names() {
    let header = include_str!("../../bindings/c/lefkanu.h");
    let mut declared: Vec<&str> = header
        .split("lefkanu_")
        .skip(1)
        .filter_map(|text| text.split_once('('))
        .map(|(name, _)| name)
        .filter(|name| {
            name.chars()
                .all(|letter| letter == '_' || letter.is_ascii_alphanumeric())
        })
        .collect();
    let compared = ALL.iter().map(|function| function.name);
    let mut here: Vec<&str> = compared.chain([ASKED_ONCE]).collect();
    declared.sort_unstable();
    here.sort_unstable();
    assert_eq!(declared, here, "the functions of lefkanu.h");
}
