//! Validation, statistics and patterns together.

use super::patterns::{patterns, with_list, Pattern};
use super::result::ValidationResult;
use super::statistics::FrameStatistics;
use crate::cases::CheckRule;
use crate::error::Result;
use crate::raw;

/// All that can be said of a frame.
#[derive(Debug, Clone, PartialEq, Eq)]
pub struct FrameAnalysis {
    /// What [`validate_frame`](super::validate_frame) says.
    pub validation: ValidationResult,
    /// Its statistics.
    pub statistics: FrameStatistics,
    /// Its patterns.
    pub patterns: Vec<Pattern>,
}

/// Validates a frame, counts its octets and looks for patterns. Refused with 31 above 65,535 octets.
///
/// ```
/// use lefkanu::{datalink::validation::analyze_frame, CheckRule};
///
/// let analysis = analyze_frame(CheckRule::AnnexG, &[0x55, 0xFF, 0x00, 0x10, 0x05, 0x00, 0x00, 0x8C])?;
/// assert!(analysis.validation.is_valid);
/// assert_eq!(analysis.statistics.null_bytes, 3);
/// assert_eq!(analysis.patterns, []);
/// # Ok::<(), lefkanu::datalink::DataLinkError>(())
/// ```
pub fn analyze_frame(rule: CheckRule, data: &[u8]) -> Result<FrameAnalysis> {
    let (list, (findings, counts, count)) = with_list(|list| raw::analyze_frame(rule, data, list))?;
    Ok(FrameAnalysis {
        validation: ValidationResult::of(&findings),
        statistics: FrameStatistics::from(counts),
        patterns: patterns(&list, count),
    })
}
