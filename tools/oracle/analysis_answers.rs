// The answers of the second list: findings, statistics, patterns and the padding search as text, after
// the Rust's were compared with them.

use std::fmt::Write;

use bacnet::datalink::validation::{
    analyze_frame, opened_patterns, opened_statistics, FrameStatistics, Pattern, ValidationResult,
};
use shared::model::analysis::analyze;
use shared::model::findings::{Findings, Link};
use shared::model::padding::State;
use shared::model::patterns::{self, detect, found};
use shared::model::questions::MOST;
use shared::model::statistics::Statistics;
use shared::model::{statistics as counting, validators};
use shared::octets::hex;
use shared::rust;

use crate::check::Rule;

// What stands in a lent list before the call, how many numbers behind it are looked at too, and how
// many of all these an answer shows.
const BEFORE: u32 = 0xA5A5_A5A5;
const BEHIND: usize = 4;
const SHOWN: usize = 60;

// A validator's answer. Panics where the Rust has another.
pub fn findings(rule: Rule, octets: &[u8], findings: &Findings, rust: &ValidationResult) -> String {
    compare_findings(rule, octets, findings, rust);
    findings_text(findings)
}

// The answer to the statistics. Panics where the Rust has another.
pub fn statistics(octets: &[u8]) -> String {
    if octets.len() <= MOST {
        compare_statistics(octets, &opened_statistics(octets));
    }
    match counting::count(octets) {
        Ok(statistics) => format!("F{}", statistics_text(&statistics)),
        Err(question) => format!("E {question:02x}{}", statistics_text(&Statistics::of(&[]))),
    }
}

// The answer to the patterns, with a lent list of a size. Panics where the Rust finds others.
pub fn patterns(octets: &[u8], size: usize) -> String {
    if octets.len() <= MOST {
        compare_patterns(octets, &opened_patterns(octets));
    }
    let entries = detect(octets, size);
    format!("{}{}", outcome(&entries), lent(&entries, size))
}

// The answer to the analysis, with a lent list of a size. Panics where the Rust has another.
pub fn analysis(rule: Rule, octets: &[u8], size: usize) -> String {
    if octets.len() <= MOST {
        let rust = analyze_frame(octets);
        compare_findings(
            rule,
            octets,
            &validators::frame(rule, octets),
            &rust.validation,
        );
        compare_statistics(octets, &rust.statistics);
        compare_patterns(octets, &rust.patterns);
    }
    let (findings, statistics, entries) = match analyze(rule, octets, size) {
        Ok(whole) => (whole.findings, whole.statistics, Ok(whole.patterns)),
        Err(question) => (Findings::default(), Statistics::of(&[]), Err(question)),
    };
    let texts = [findings_text(&findings), statistics_text(&statistics)].concat();
    format!("{} {texts}{}", outcome(&entries), lent(&entries, size))
}

// The answer to the padding search, octet by octet. Panics where the Rust finds another padding.
pub fn padding(octets: &[u8]) -> String {
    let mut text = String::new();
    for index in 0..octets.len() {
        let front = &octets[..=index];
        compare_patterns(front, &opened_patterns(front));
        let state = State::of(front);
        write!(text, " {:06x} {:06x}", state.run, state.length()).unwrap();
    }
    text
}

// Panics unless the Rust found the same. Of an MS/TP frame under Annex G, whose checks are others, the
// errors of kind 4 are left out, and validity counts only where another error is left. There a data
// frame to a slave has no warning, so the Rust's is left out too.
fn compare_findings(rule: Rule, octets: &[u8], findings: &Findings, rust: &ValidationResult) {
    let mut findings = findings.clone();
    let rust = if rule == Rule::AnnexG && findings.link == Link::Mstp && octets.len() >= 8 {
        let mut rust = rust::findings::told_under_annex_g(octets, rust);
        for found in [&mut rust, &mut findings] {
            found.errors.retain(|[kind, _, _]| *kind != 4);
            found.valid |= found.errors.is_empty();
        }
        rust
    } else {
        rust::findings::told(rust)
    };
    assert_eq!(rust, findings, "validating {}", hex(octets));
}

// Panics unless the Rust counted the same.
fn compare_statistics(octets: &[u8], rust: &FrameStatistics) {
    let told = rust::analysis::statistics(octets, rust);
    assert_eq!(told, Statistics::of(octets), "counting {}", hex(octets));
}

// Panics unless the Rust found the same.
fn compare_patterns(octets: &[u8], rust: &[Pattern]) {
    let told = rust::analysis::patterns(octets, rust);
    assert_eq!(told, found(octets), "patterns in {}", hex(octets));
}

// A validator's result.
fn findings_text(findings: &Findings) -> String {
    let valid = if findings.valid { 'v' } else { 'x' };
    let [_, link, size, errors, warnings, entries @ ..] = findings.numbers();
    let mut text = format!("{valid} {link:x} {size:06x} {errors:x} {warnings:x}");
    for [kind, first, second] in entries.as_chunks::<3>().0 {
        write!(text, " {kind:x} {first:06x} {second:06x}").unwrap();
    }
    text
}

// Statistics.
fn statistics_text(statistics: &Statistics) -> String {
    let [zeros, high, octet, length, start] = statistics.numbers();
    let mut text = format!(" {zeros:06x} {high:06x} {octet:02x} {length:06x} {start:06x}");
    for (value, count) in statistics.counts.iter().enumerate() {
        if *count > 0 {
            write!(text, " {value:02x}:{count:06x}").unwrap();
        }
    }
    text
}

// The count of the entries, or the refusal.
fn outcome(entries: &Result<Vec<patterns::Entry>, u8>) -> String {
    match entries {
        Ok(entries) => format!("F {:04x}", entries.len()),
        Err(question) => format!("E {question:02x}"),
    }
}

// The lent list after the call and the numbers behind it, or the first of very many.
fn lent(entries: &Result<Vec<patterns::Entry>, u8>, size: usize) -> String {
    let mut after = vec![BEFORE; size + BEHIND];
    if let Ok(entries) = entries {
        for (number, written) in after.iter_mut().zip(entries.as_flattened()) {
            *number = u32::try_from(*written).unwrap();
        }
    }
    let shown = after.iter().take(SHOWN);
    shown.map(|number| format!(" {number:08x}")).collect()
}
