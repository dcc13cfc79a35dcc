//! How often octets occur.

use crate::error::Result;
use crate::raw::{self, Counts};

/// Counts of a frame's octets. There is no entropy.
#[derive(Debug, Clone, PartialEq, Eq)]
pub struct FrameStatistics {
    /// How many octets have each value.
    pub byte_distribution: [u32; 256],
    /// How many are 00.
    pub null_bytes: usize,
    /// How many are 80 or more.
    pub high_bytes: usize,
    /// Octet and length of the longest run, of equals the first; 0 and 0 without octets.
    pub longest_run: (u8, usize),
    /// The place of its first octet; 0 without octets.
    pub longest_run_start: usize,
}

impl From<Counts> for FrameStatistics {
    fn from(counted: Counts) -> Self {
        let [null_bytes, high_bytes, octet, length, start] = counted.counts;
        Self {
            byte_distribution: counted.byte_distribution,
            null_bytes,
            high_bytes,
            longest_run: (octet as u8, length),
            longest_run_start: start,
        }
    }
}

/// Counts a frame's octets. Refused with 31 above 65,535.
///
/// ```
/// use lefkanu::datalink::validation::calculate_frame_statistics;
///
/// let statistics = calculate_frame_statistics(&[0x00, 0x41, 0x41, 0xFF])?;
/// assert_eq!(statistics.byte_distribution[0x41], 2);
/// assert_eq!((statistics.null_bytes, statistics.high_bytes), (1, 1));
/// assert_eq!((statistics.longest_run, statistics.longest_run_start), ((0x41, 2), 1));
/// # Ok::<(), lefkanu::datalink::DataLinkError>(())
/// ```
pub fn calculate_frame_statistics(data: &[u8]) -> Result<FrameStatistics> {
    raw::calculate_frame_statistics(data).map(FrameStatistics::from)
}
