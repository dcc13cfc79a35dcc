//! The log: records, each with its time, if it has one, its kind and its length after it.

use crate::error::{DataLinkError, Result};
use crate::raw;
use std::iter::FusedIterator;

pub use crate::cases::RecordKind;

impl TryFrom<u8> for RecordKind {
    type Error = DataLinkError;

    /// The kind of a number. Refused with 42 but for 1 to 3.
    fn try_from(value: u8) -> Result<Self> {
        Ok(match value {
            1 => Self::Bus,
            2 => Self::Ip,
            3 => Self::Ethernet,
            _ => return Err(raw::data_link_error(42)),
        })
    }
}

/// A record of a log.
#[derive(Debug, Clone, Copy, PartialEq, Eq)]
pub struct Record<'a> {
    /// What its octets are.
    pub kind: RecordKind,
    /// The second when it was made; none where it has no time.
    pub time: Option<u32>,
    /// The place of its first octet: the next older record ends there.
    pub start: usize,
    /// Its octets.
    pub payload: &'a [u8],
}

/// The record that ends at an end; none where the log's start is reached. Refused with 47, or 41 to 44.
///
/// ```
/// use lefkanu::log::{read_record, RecordKind};
///
/// // The kind of a record with a time is 11, 12 or 13 there, and the second stands before it.
/// let log = [0xAA, 0xBB, 1, 0, 2, 0xCC, 0, 0, 1, 4, 12, 0, 1];
/// let newest = read_record(&log, log.len())?.unwrap();
/// assert_eq!((newest.kind, newest.time), (RecordKind::Ip, Some(260)));
/// assert_eq!((newest.start, newest.payload), (5, &[0xCC][..]));
/// let oldest = read_record(&log, newest.start)?.unwrap();
/// assert_eq!((oldest.kind, oldest.time), (RecordKind::Bus, None));
/// # Ok::<(), lefkanu::datalink::DataLinkError>(())
/// ```
pub fn read_record(log: &[u8], end: usize) -> Result<Option<Record<'_>>> {
    let Some([kind, start, count, timed, second]) = raw::read_record(log, end)? else {
        return Ok(None);
    };
    Ok(Some(Record {
        // Reading has asked question 42 already.
        kind: RecordKind::try_from(kind as u8)?,
        time: (timed == 1).then_some(second as u32),
        start,
        payload: &log[start..start + count],
    }))
}

/// Writes a record after the first `used` octets of a buffer, and nothing else; answers how many are used now. The time
/// is the second when it was made, or none. Refused with 47, 43 or 46, and then nothing is written.
///
/// ```
/// use lefkanu::log::{append, RecordKind};
///
/// let mut buffer = [0; 20];
/// let used = append(&mut buffer, 0, RecordKind::Bus, None, &[0xAA, 0xBB])?;
/// assert_eq!(buffer[..used], [0xAA, 0xBB, 1, 0, 2]);
/// let new_used = append(&mut buffer, used, RecordKind::Bus, Some(260), &[0xCC])?;
/// assert_eq!(buffer[used..new_used], [0xCC, 0, 0, 1, 4, 11, 0, 1]);
/// # Ok::<(), lefkanu::datalink::DataLinkError>(())
/// ```
pub fn append(
    buffer: &mut [u8],
    used: usize,
    kind: RecordKind,
    time: Option<u32>,
    payload: &[u8],
) -> Result<usize> {
    raw::append(buffer, used, kind, time, payload)
}

/// The records of a log, newest first. It ends where the log's start is reached, or after an error.
///
/// If a log that [`append`] wrote to an empty buffer has lost octets at its front, what is left gives
/// every record that is still whole; then it ends if no record is torn, and else 41 or 44 is refused.
///
/// ```
/// use lefkanu::log::Records;
///
/// let log = [0xAA, 0xBB, 1, 0, 2, 0xCC, 2, 0, 1];
/// let newest_first: Vec<_> = Records::new(&log).map(|record| record.unwrap().payload).collect();
/// assert_eq!(newest_first, [&[0xCC][..], &[0xAA, 0xBB]]);
/// ```
#[derive(Debug, Clone)]
pub struct Records<'a> {
    log: &'a [u8],
    end: Option<usize>,
}

impl<'a> Records<'a> {
    /// The records from the end of a log.
    pub fn new(log: &'a [u8]) -> Self {
        Self::ending_at(log, log.len())
    }

    /// The records from another end, as where the newest octets of a log are damaged.
    pub fn ending_at(log: &'a [u8], end: usize) -> Self {
        Self {
            log,
            end: Some(end),
        }
    }
}

impl<'a> Iterator for Records<'a> {
    type Item = Result<Record<'a>>;

    fn next(&mut self) -> Option<Self::Item> {
        let read = read_record(self.log, self.end.take()?).transpose()?;
        self.end = read.ok().map(|record| record.start);
        Some(read)
    }
}

impl FusedIterator for Records<'_> {}
