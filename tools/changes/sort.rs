// The sorts of changes: which part of a frame they turn, by which patterns, and what is foreseen.

use std::ops::Range;

use crate::frame::{Change, Frame};
use crate::rule::Rule;

// The bits that can change and leave a frame if its header check doesn't find it: the lowest three of
// the type, which make another type, and those of both addresses.
const OPEN: u64 = 0b111 << 16 | 0xFFFF << 24;

// The part of a frame that is changed.
#[derive(PartialEq)]
pub enum Part {
    Nothing,
    // One octet, any.
    Octet,
    // Header and header check.
    Header,
    // Data and data check.
    Data,
}

pub struct Sort {
    pub name: String,
    pub part: Part,
    // All odd ones in a range: their lowest bit is the first that is turned, so each change comes once.
    patterns: Range<u32>,
    // Whether a change is accepted.
    pub foreseen: fn(Rule, Change) -> bool,
}

impl Sort {
    // All sorts under a rule. The unchanged frame comes last: that shows that each change was undone.
    pub fn all(rule: Rule) -> [Sort; 7] {
        let sort = |name: &str, part, patterns, foreseen| Sort {
            name: name.to_string(),
            part,
            patterns,
            foreseen,
        };
        let one = |name: &str, part, pattern, foreseen| {
            let name = format!("{name}, pattern {pattern:X}");
            sort(&name, part, pattern..pattern + 1, foreseen)
        };
        let [header, data] = rule.unfound();
        [
            sort("one octet", Part::Octet, 1..0x100, of_header),
            sort("header, 1 to 7 bits", Part::Header, 1..0x80, refused),
            sort("header, 8 bits", Part::Header, 0x81..0x100, of_header),
            sort("data, 1 to 16 bits", Part::Data, 1..0x10000, refused),
            one("header", Part::Header, header, of_header),
            one("data", Part::Data, data, accepted),
            sort("no change", Part::Nothing, 0..1, accepted),
        ]
    }

    // Each change of a frame.
    pub fn each(&self, frame: &mut Frame, mut act: impl FnMut(&mut Frame, Change)) {
        let bits = match self.part {
            Part::Nothing => 0..1,
            Part::Octet => 0..frame.bits(),
            Part::Header => 16..64,
            Part::Data => 64..frame.bits(),
        };
        for bit in bits.clone() {
            let end = match self.part {
                Part::Octet => bit / 8 * 8 + 8,
                _ => bits.end,
            };
            let fits = |pattern: &u32| bit + width(*pattern) <= end;
            for pattern in self.patterns.clone().step_by(2).take_while(fits) {
                act(frame, Change { bit, pattern });
            }
        }
    }
}

// How many bits a pattern has.
fn width(pattern: u32) -> usize {
    (u32::BITS - pattern.leading_zeros()) as usize
}

fn refused(_: Rule, _: Change) -> bool {
    false
}

fn accepted(_: Rule, _: Change) -> bool {
    true
}

// One octet, or bits of the header: accepted only with the pattern that the header check doesn't find, and
// only where nothing else refuses it. Annex G's pattern has nine bits, so no narrower change has it.
fn of_header(rule: Rule, change: Change) -> bool {
    let Change { bit, pattern } = change;
    pattern == rule.unfound()[0] && bit < 40 && u64::from(pattern) << bit & !OPEN == 0
}
