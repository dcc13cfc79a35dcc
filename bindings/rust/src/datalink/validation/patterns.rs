//! Patterns in a frame.

use super::reasons::SuspiciousReason;
use crate::error::Result;
use crate::raw;

/// How many numbers an entry has: pattern, start, length, octet.
const ENTRY: usize = 4;
/// Entries of the first list that is lent.
const FIRST_ENTRIES: usize = 16;
/// Question 32: do all entries fit?
const DO_NOT_FIT: u8 = 32;

/// A pattern in a frame.
#[derive(Debug, Clone, PartialEq, Eq)]
pub enum Pattern {
    /// The frame's end has one octet again and again, at least four times.
    Padding {
        /// The place of the first.
        start: usize,
        /// How many.
        length: usize,
        /// The octet.
        value: u8,
    },
    /// A sequence again and again; as in bacnet-rs, it is never found.
    RepeatedSequence {
        /// The place of the first.
        start: usize,
        /// The sequence.
        pattern: Vec<u8>,
        /// How often.
        count: usize,
    },
    /// At least four octets from 20 to 7E; [`Pattern::text`] takes them from the frame.
    AsciiText {
        /// The place of the first.
        start: usize,
        /// How many.
        length: usize,
    },
    /// A frame that looks like none.
    Suspicious {
        /// How.
        description: SuspiciousReason,
    },
}

impl Pattern {
    /// The text of a frame that an `AsciiText` stands for; none for other patterns, and where the frame is another.
    ///
    /// ```
    /// use lefkanu::datalink::validation::detect_patterns;
    ///
    /// let frame = b"\x00\x01bin 7\x02";
    /// let texts: Vec<_> = detect_patterns(frame)?.iter().filter_map(|p| p.text(frame)).collect();
    /// assert_eq!(texts, ["bin 7"]);
    /// # Ok::<(), lefkanu::datalink::DataLinkError>(())
    /// ```
    pub fn text<'a>(&self, frame: &'a [u8]) -> Option<&'a str> {
        let Self::AsciiText { start, length } = *self else {
            return None;
        };
        let octets = frame.get(start..)?.get(..length)?;
        std::str::from_utf8(octets).ok()
    }
}

/// The pattern of an entry.
fn pattern(entry: &[u32]) -> Pattern {
    let (start, length) = (entry[1] as usize, entry[2] as usize);
    match entry[0] {
        1 => Pattern::Padding {
            start,
            length,
            value: entry[3] as u8,
        },
        2 => Pattern::AsciiText { start, length },
        3 => Pattern::Suspicious {
            description: SuspiciousReason::AllZeros,
        },
        4 => Pattern::Suspicious {
            description: SuspiciousReason::TestSequence,
        },
        kind => unreachable!("no pattern has the number {kind}"),
    }
}

/// The patterns of the first `count` entries of a list.
pub(super) fn patterns(list: &[u32], count: usize) -> Vec<Pattern> {
    list.chunks_exact(ENTRY).take(count).map(pattern).collect()
}

/// Lends a list, and one of twice the size until all entries fit. At most 65,535 octets are looked at, so they do.
pub(super) fn with_list<T>(mut lend: impl FnMut(&mut [u32]) -> Result<T>) -> Result<(Vec<u32>, T)> {
    let mut list = vec![0; FIRST_ENTRIES * ENTRY];
    loop {
        match lend(&mut list) {
            Err(error) if error.question() == DO_NOT_FIT => list.resize(2 * list.len(), 0),
            answer => return answer.map(|value| (list, value)),
        }
    }
}

/// A frame's patterns: padding, texts, zeros, sequence. Refused with 31 above 65,535 octets.
pub fn detect_patterns(data: &[u8]) -> Result<Vec<Pattern>> {
    let (list, count) = with_list(|list| raw::detect_patterns(data, list))?;
    Ok(patterns(&list, count))
}
