//! The frames of a run of bus octets.

use crate::cases::CheckRule;
use crate::error::Result;
use crate::raw;
use std::iter::FusedIterator;
use std::ops::Range;

/// Where a frame stands in a run.
#[derive(Debug, Clone, Copy, PartialEq, Eq, Hash)]
pub struct Report {
    /// The place of its first octet.
    pub place: usize,
    /// How many octets it has.
    pub count: usize,
}

impl Report {
    /// The frame's places, as in `&run[report.range()]`.
    ///
    /// A report can also be made by hand. If its end is above `usize::MAX`, the range ends at `usize::MAX`: no slice has
    /// such a range, and `run.get(report.range())` is `None`.
    pub fn range(&self) -> Range<usize> {
        self.place..self.place.saturating_add(self.count)
    }
}

/// The first acceptable frame that starts at a place or later: the validator has no error for it, and its type is 0 to
/// 7. Refused with 31 or 33.
///
/// ```
/// use lefkanu::finder::{find_frame, Report};
/// use lefkanu::CheckRule;
///
/// let run = [0x07, 0x55, 0xFF, 0x00, 0x10, 0x05, 0x00, 0x00, 0x8C];
/// assert_eq!(find_frame(CheckRule::AnnexG, &run, 0)?, Some(Report { place: 1, count: 8 }));
/// assert_eq!(find_frame(CheckRule::AnnexG, &run, 2)?, None);
/// # Ok::<(), lefkanu::datalink::DataLinkError>(())
/// ```
pub fn find_frame(rule: CheckRule, run: &[u8], place: usize) -> Result<Option<Report>> {
    let found = raw::find_frame(rule, run, place)?;
    Ok(found.map(|[place, count]| Report { place, count }))
}

/// How many frames a whole reading of a run finds. Refused with 31.
pub fn count_frames(rule: CheckRule, run: &[u8]) -> Result<usize> {
    raw::count_frames(rule, run)
}

/// The whole reading of a run: each frame is looked for from the end of the one before. Refused with 31.
pub fn read_frames(rule: CheckRule, run: &[u8]) -> Result<Vec<Report>> {
    // With room for two numbers a frame, question 32 is answered.
    let mut numbers = vec![0; 2 * raw::count_frames(rule, run)?];
    let count = raw::read_frames(rule, run, &mut numbers)?;
    let report = |pair: &[u32]| Report {
        place: pair[0] as usize,
        count: pair[1] as usize,
    };
    Ok(numbers.chunks_exact(2).take(count).map(report).collect())
}

/// The whole reading of a run, frame by frame. It ends after an error, which can be 31 only.
///
/// ```
/// use lefkanu::{datalink::mstp::decode_header, finder::Frames, CheckRule};
///
/// let run = [0x07, 0x55, 0xFF, 0x00, 0x10, 0x05, 0x00, 0x00, 0x8C, 0x07];
/// for report in Frames::new(CheckRule::AnnexG, &run) {
///     let (header, _) = decode_header(CheckRule::AnnexG, &run[report?.range()])?;
///     assert_eq!(header.source, 5);
/// }
/// # Ok::<(), lefkanu::datalink::DataLinkError>(())
/// ```
#[derive(Debug, Clone)]
pub struct Frames<'a> {
    rule: CheckRule,
    run: &'a [u8],
    place: Option<usize>,
}

impl<'a> Frames<'a> {
    /// The reading of a run, from its front on.
    pub fn new(rule: CheckRule, run: &'a [u8]) -> Self {
        Self {
            rule,
            run,
            place: Some(0),
        }
    }
}

impl Iterator for Frames<'_> {
    type Item = Result<Report>;

    fn next(&mut self) -> Option<Self::Item> {
        let found = find_frame(self.rule, self.run, self.place.take()?).transpose()?;
        self.place = found.ok().map(|report| report.range().end);
        Some(found)
    }
}

impl FusedIterator for Frames<'_> {}
