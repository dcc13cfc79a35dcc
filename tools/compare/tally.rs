// What is counted for each function, call by call.

use std::collections::{BTreeMap, BTreeSet};
use std::fmt::Write;

use crate::call::Call;
use crate::outcome::Rust;
use crate::spoil::Spoiler;

// The fewest inputs that each function must be compared on.
pub const LEAST: u64 = 1_000_000;

// How many differences are shown for each function.
const SHOWN: u64 = 4;

// A kind of finding, pattern or message that an answer has: a letter, a kind and a reason.
pub type Sight = (char, usize, usize);

// What was counted for a function.
pub struct Tally {
    pub name: &'static str,
    pub inputs: u64,
    pub differ: u64,
    answers: [u64; 256],
    whole: u64,
    but_checks: u64,
    sights: BTreeMap<Sight, u64>,
    headers: BTreeSet<[u8; 4]>,
    pub spoiler: Option<Spoiler>,
}

impl Tally {
    // Nothing counted yet.
    pub fn new(name: &'static str, spoiler: Option<Spoiler>) -> Tally {
        Tally {
            name,
            inputs: 0,
            differ: 0,
            answers: [0; 256],
            whole: 0,
            but_checks: 0,
            sights: BTreeMap::new(),
            headers: BTreeSet::new(),
            spoiler,
        }
    }

    // Begins with the next form of a function, or without a time and with one: under sabotage, it is
    // changed in each way anew.
    pub fn next_form(&mut self) {
        if let Some(spoiler) = &mut self.spoiler {
            spoiler.again();
        }
    }

    // Compares a call, counts it, and shows it if it is among the first that differ.
    pub fn compare(&mut self, mut call: Call) {
        if let Some(spoiler) = &mut self.spoiler {
            spoiler.spoil(&mut call);
        }
        self.inputs += 1;
        self.answers[usize::from(call.answer)] += 1;
        match call.rust {
            Rust::Silent => {}
            Rust::Whole(_) => self.whole += 1,
            Rust::ButChecks(_) => self.but_checks += 1,
        }
        if !call.as_model() || !call.as_rust() {
            self.differs(&|| call.text());
        }
    }

    // Counts a difference, and shows it if it is among the first.
    pub fn differs(&mut self, text: &dyn Fn() -> String) {
        self.differ += 1;
        if self.differ <= SHOWN && self.spoiler.is_none() {
            eprintln!("lefkanu_{} differs: {}", self.name, text());
        }
    }

    // Counts something that an answer has.
    pub fn see(&mut self, sight: Sight) {
        *self.sights.entry(sight).or_default() += 1;
    }

    // Counts a kind of MS/TP header: rule, type, classes of destination and source. Those that come
    // again count once.
    pub fn see_header(&mut self, header: [u8; 4]) {
        self.headers.insert(header);
    }

    // What is wrong with the coverage: too few inputs, answers or sights that never came.
    pub fn gaps(&self, answers: &[u8], sights: &str) -> Vec<String> {
        let mut gaps = Vec::new();
        if self.inputs < LEAST {
            gaps.push(format!("only {} inputs", self.inputs));
        }
        // Answers by a form or a time: each of the two has enough inputs of its own.
        if let Some(letter @ ('f' | 't')) = sights.chars().next() {
            let counts = [0, 1].map(|reason| (reason, self.with_reason(letter, reason)));
            let few = counts.iter().filter(|(_, count)| *count < LEAST);
            gaps.extend(few.map(|(reason, count)| {
                format!("only {count} inputs of {letter}, reason {reason}")
            }));
        }
        let unseen = |answer: &&u8| self.answers[usize::from(**answer)] == 0;
        let missing = answers.iter().filter(unseen);
        gaps.extend(missing.map(|answer| format!("no answer {}", answer_text(*answer))));
        let headers = format!("h{}", self.headers.len());
        let mut seen: Vec<String> = self.sights.keys().map(sight_text).collect();
        seen.push(headers.clone());
        let unseen = |sight: &&str| seen.iter().all(|seen| seen != sight);
        let missing = sights.split_whitespace().filter(unseen);
        gaps.extend(missing.map(|sight| match sight.starts_with('h') {
            true => format!("{headers} for {sight}"),
            false => format!("no {sight}"),
        }));
        gaps
    }

    // How many inputs had sights of a letter with a reason.
    fn with_reason(&self, letter: char, reason: usize) -> u64 {
        let counts = self.sights.iter();
        let counts = counts.filter(|((of, _, with), _)| (*of, *with) == (letter, reason));
        counts.map(|(_, count)| count).sum()
    }

    // The function's line of the table.
    pub fn line(&self) -> String {
        let mut refused = String::new();
        for (answer, count) in (0..=255).zip(self.answers).skip(1) {
            if count > 0 {
                write!(refused, "{}: {count}, ", answer_text(answer)).unwrap();
            }
        }
        let mut sights = String::new();
        for (sight, count) in &self.sights {
            write!(sights, "{}: {count}, ", sight_text(sight)).unwrap();
        }
        if !self.headers.is_empty() {
            write!(sights, "h{}", self.headers.len()).unwrap();
        }
        let texts = [refused, sights].map(|text| text.trim_end_matches(", ").to_string());
        let [refused, sights] = texts;
        let Tally {
            name,
            inputs,
            answers: [accepted, ..],
            whole,
            but_checks,
            differ,
            ..
        } = self;
        format!(
            "| {name} | {inputs} | {accepted} | {refused} | {whole} | {but_checks} | {differ} | {sights} |"
        )
    }
}

// The table's head.
pub const HEAD: &str = "\
| function | inputs | accepted | refused, by answer | judged by the Rust | but for the checks | differ | seen |
|---|---|---|---|---|---|---|---|";

// An answer as the table has it: questions decimal, FE and FF as they are called.
fn answer_text(answer: u8) -> String {
    match answer {
        0xFE | 0xFF => format!("{answer:X}"),
        _ => answer.to_string(),
    }
}

// A sight as the table has it.
fn sight_text((letter, kind, reason): &Sight) -> String {
    match reason {
        0 => format!("{letter}{kind}"),
        _ => format!("{letter}{kind}.{reason}"),
    }
}
