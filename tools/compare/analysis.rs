// Statistics, patterns, and the analysis of both and the findings.

use bacnet::datalink::validation::{
    analyze_frame, opened_patterns, opened_statistics, validate_frame, Pattern,
};
use ffi::{
    lefkanu_analyze_frame, lefkanu_calculate_frame_statistics, lefkanu_detect_patterns,
    COUNT_NUMBERS, RESULT_NUMBERS,
};
use shared::model::analysis::{self, Analysis};
use shared::model::patterns::{self, Entry};
use shared::model::questions::MOST;
use shared::model::statistics::{self, Statistics};
use shared::model::validators;
use shared::octets::hex;
use shared::random::Random;
use shared::rust;

use crate::call::Call;
use crate::check::Rule;
use crate::inputs::{any, mstp, one_of, Ask};
use crate::lent::Lent;
use crate::outcome::{model, Rust};
use crate::tally::Tally;
use crate::validation::{rust_findings, see_mstp_header};
use crate::written::InMemory;

// How many frames there are, beside the short words: under each rule, or where there is none.
const FRAMES: usize = 450_000;
const RULELESS: usize = 950_000;

// Asks about so many octets with patterns and frames, and all short words of few values.
fn each(count: usize, random: &mut Random, ask: Ask) {
    any::words(random, ask);
    any::patterned().each(count, random, ask);
}

// Compares the statistics.
pub fn frame_statistics(tally: &mut Tally, random: &mut Random) {
    each(RULELESS, random, &mut |random, frame| {
        let mut distribution = Lent::<u32>::new(256, random);
        let mut counts = Lent::<usize>::new(COUNT_NUMBERS, random);
        let (octets, size) = (frame.as_ptr(), frame.len());
        let (values, others) = (distribution.array(), counts.array());
        let answer = unsafe { lefkanu_calculate_frame_statistics(octets, size, values, others) };
        let counted = statistics::count(frame);
        if let Ok(counted) = &counted {
            see_run(tally, frame, counted);
        }
        tally.compare(Call {
            answer,
            lent: &mut [&mut distribution, &mut counts],
            model: model(counted),
            rust: match frame.len() {
                0..=MOST => {
                    let told = opened_statistics(frame);
                    Rust::whole(Ok(rust::analysis::statistics(frame, &told)))
                }
                _ => Rust::Silent,
            },
            input: &|| hex(frame),
        });
    });
}

// Counts the longest runs: in front or later, and with another as long after it.
fn see_run(tally: &mut Tally, frame: &[u8], counted: &Statistics) {
    let ((_, length), start) = (counted.longest, counted.start);
    tally.see(('r', if start == 0 { 1 } else { 2 }, 0));
    let mut runs = frame[start + length..].chunk_by(|octet, next| octet == next);
    if runs.any(|run| run.len() == length) {
        tally.see(('r', 3, 0));
    }
}

// The Rust's patterns, if they fit.
fn rust_patterns(frame: &[u8], found: &[Pattern], room: usize) -> Option<Vec<Entry>> {
    let entries = rust::analysis::patterns(frame, found);
    (4 * entries.len() <= room).then_some(entries)
}

// The room that the patterns of a frame need; some, where it is too long for them.
fn fit(frame: &[u8]) -> usize {
    match frame.len() {
        0..=MOST => 4 * patterns::found(frame).len(),
        _ => 8,
    }
}

// A room for the patterns of a frame: just enough, around that, or any.
fn room(frame: &[u8], random: &mut Random) -> usize {
    let fit = fit(frame);
    let less = fit.saturating_sub(1);
    match random.below(4) {
        0 => one_of(&[0, 3, 4, 5, less, fit.saturating_sub(4)], random),
        1 => fit,
        _ => fit + random.below(9),
    }
}

// Compares the patterns.
pub fn detect_patterns(tally: &mut Tally, random: &mut Random) {
    each(RULELESS, random, &mut |random, frame| {
        let room = room(frame, random);
        let mut out = Lent::<u32>::new(room, random);
        let mut count = Lent::<usize>::new(1, random);
        let (octets, size) = (frame.as_ptr(), frame.len());
        let (list, counted) = (out.pointer(), count.pointer());
        let answer = unsafe { lefkanu_detect_patterns(octets, size, list, room, counted) };
        let found = patterns::detect(frame, room);
        if let Ok(entries) = &found {
            see(tally, entries);
        }
        let rust = match frame.len() {
            0..=MOST => rust_patterns(frame, &opened_patterns(frame), room),
            _ => None,
        };
        tally.compare(Call {
            answer,
            lent: &mut [&mut out, &mut count],
            model: model(found),
            rust: rust.map_or(Rust::Silent, |entries| Rust::whole(Ok(entries))),
            input: &|| format!("room {room}, {}", hex(frame)),
        });
    });
}

// Counts the patterns found, by their kind.
fn see(tally: &mut Tally, entries: &[Entry]) {
    for [kind, ..] in entries {
        tally.see(('p', *kind, 0));
    }
}

// Compares the analysis, also of frames of each link and under numbers that name no rule.
pub fn whole_analysis(tally: &mut Tally, random: &mut Random) {
    mstp::types_and_addresses(random, &mut |random, rule, frame| {
        analyze_into(tally, random, fit(frame), rule, frame);
    });
    each(FRAMES, random, &mut |random, frame| {
        for rule in 0..2 {
            analyze(tally, random, rule, frame);
        }
    });
    let frames = any::frames();
    frames.each(FRAMES / 3, random, &mut |random, frame| {
        let rule = random.below(2) as u8;
        analyze(tally, random, rule, frame);
    });
    frames.unnamed(random, &mut |random, rule, frame| {
        analyze(tally, random, rule, frame);
    });
}

// One analysis, with any room.
fn analyze(tally: &mut Tally, random: &mut Random, rule: u8, frame: &[u8]) {
    let room = room(frame, random);
    analyze_into(tally, random, room, rule, frame);
}

// One analysis.
fn analyze_into(tally: &mut Tally, random: &mut Random, room: usize, rule: u8, frame: &[u8]) {
    let mut result = Lent::<usize>::new(RESULT_NUMBERS, random);
    let mut distribution = Lent::<u32>::new(256, random);
    let mut counts = Lent::<usize>::new(COUNT_NUMBERS, random);
    let mut out = Lent::<u32>::new(room, random);
    let mut count = Lent::<usize>::new(1, random);
    let (octets, size) = (frame.as_ptr(), frame.len());
    let (found, values, others) = (result.array(), distribution.array(), counts.array());
    let (list, counted) = (out.pointer(), count.pointer());
    let answer = unsafe {
        lefkanu_analyze_frame(
            rule, octets, size, found, values, others, list, room, counted,
        )
    };
    let found = Rule::of(rule).and_then(|rule| analysis::analyze(rule, frame, room));
    if let (Ok(rule), Ok(analysis)) = (Rule::of(rule), &found) {
        tally.see(('l', analysis.findings.link as usize, 0));
        see_mstp_header(tally, rule, frame, &analysis.findings);
        see(tally, &analysis.patterns);
        see_run(tally, frame, &analysis.statistics);
    }
    tally.compare(Call {
        answer,
        lent: &mut [
            &mut result,
            &mut distribution,
            &mut counts,
            &mut out,
            &mut count,
        ],
        model: model(found),
        rust: rust_analysis(rule, frame, room).unwrap_or(Rust::Silent),
        input: &|| format!("rule {rule}, room {room}, {}", hex(frame)),
    });
}

// The Rust's analysis, if its patterns fit. Its findings are judged as those of its validator.
fn rust_analysis(rule: u8, frame: &[u8], room: usize) -> Option<Rust> {
    let rule = Rule::of(rule).ok()?;
    if frame.len() > MOST {
        return None;
    }
    let told = analyze_frame(frame);
    let patterns = rust_patterns(frame, &told.patterns, room)?;
    let model = validators::frame(rule, frame);
    let (judge, findings) = rust_findings(rule, frame, &model, validate_frame);
    let analysis = Analysis {
        findings,
        statistics: rust::analysis::statistics(frame, &told.statistics),
        patterns,
    };
    Some(judge(Ok(analysis.written())))
}
