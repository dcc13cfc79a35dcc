// What the Rust counts, and the patterns that it finds.

use bacnet::datalink::validation::{opened_patterns, FrameStatistics, Pattern};

use crate::model::patterns::Entry;
use crate::model::statistics::{first_place, Statistics};
use crate::octets::hex;

// The Rust's statistics of some octets. It doesn't tell where its longest run starts: the model does.
pub fn statistics(octets: &[u8], counted: &FrameStatistics) -> Statistics {
    let counts = counted.byte_distribution.map(|count| count as usize);
    Statistics {
        counts: counts.to_vec(),
        zeros: counted.null_bytes,
        high: counted.high_bytes,
        longest: counted.longest_run,
        start: first_place(octets, counted.longest_run),
    }
}

// The Rust's patterns in some octets.
pub fn patterns(octets: &[u8], found: &[Pattern]) -> Vec<Entry> {
    found.iter().map(|pattern| entry(octets, pattern)).collect()
}

// The padding among the Rust's patterns in some octets.
pub fn padding(octets: &[u8]) -> Option<Entry> {
    let found = patterns(octets, &opened_patterns(octets));
    found.into_iter().find(|[kind, ..]| *kind == 1)
}

// A pattern of the Rust. A text must be what the octets have there.
fn entry(octets: &[u8], pattern: &Pattern) -> Entry {
    match pattern {
        Pattern::Padding {
            start,
            length,
            value,
        } => [1, *start, *length, usize::from(*value)],
        Pattern::AsciiText { start, text } => {
            let there = &octets[*start..][..text.len()];
            assert_eq!(text.as_bytes(), there, "a text in {}", hex(octets));
            [2, *start, text.len(), 0]
        }
        Pattern::Suspicious { description } => match description.as_str() {
            "Frame contains all zeros" => [3, 0, 0, 0],
            "Frame starts with sequential test pattern" => [4, 0, 0, 0],
            text => panic!("a pattern of no number: {text:?}"),
        },
        Pattern::RepeatedSequence { .. } => panic!("a repeated sequence, which never comes"),
    }
}
