//! The validators and their result.

use super::findings::{error, warning, ValidationError, ValidationWarning};
use crate::cases::{CheckRule, DataLinkType};
use crate::raw::{self, Findings};

// Where the entries stand in the library's result, each of three numbers.
const ERRORS: usize = 5;
const WARNINGS: usize = ERRORS + 7 * ENTRY;
const ENTRY: usize = 3;

/// What a validator says of a frame.
#[derive(Debug, Clone, PartialEq, Eq)]
pub struct ValidationResult {
    /// Whether it has no errors.
    pub is_valid: bool,
    /// The data link it was held to; none where the octets tell none.
    pub link_type: Option<DataLinkType>,
    /// How many octets it has.
    pub frame_size: usize,
    /// What is wrong, at most seven.
    pub errors: Vec<ValidationError>,
    /// What is unusual, at most two.
    pub warnings: Vec<ValidationWarning>,
}

impl ValidationResult {
    /// The result that a validator of the library answers as numbers. Other numbers may mean nothing, so callers have no
    /// way to give any:
    ///
    /// ```compile_fail
    /// lefkanu::datalink::validation::ValidationResult::from(&[9; 32]);
    /// ```
    pub(super) fn of(findings: &Findings) -> Self {
        let [valid, link, frame_size, errors, warnings, ..] = *findings;
        let entries =
            |from: usize, count: usize| findings[from..][..ENTRY * count].chunks_exact(ENTRY);
        Self {
            is_valid: valid == 1,
            link_type: match link {
                1 => Some(DataLinkType::BacnetIp),
                2 => Some(DataLinkType::Ethernet),
                3 => Some(DataLinkType::MsTP),
                _ => None,
            },
            frame_size,
            errors: entries(ERRORS, errors).map(error).collect(),
            warnings: entries(WARNINGS, warnings).map(warning).collect(),
        }
    }
}

/// Holds octets to what an MS/TP frame must be.
///
/// ```
/// use lefkanu::datalink::validation::{validate_mstp_frame, ValidationError};
/// use lefkanu::CheckRule;
///
/// let result = validate_mstp_frame(CheckRule::AnnexG, &[0x55, 0xFF, 0x00, 0x10, 0x05, 0x00, 0x00, 0x9A]);
/// assert_eq!(result.errors, [ValidationError::CrcMismatch { expected: 0x9A, calculated: 0x8C }]);
/// ```
pub fn validate_mstp_frame(rule: CheckRule, data: &[u8]) -> ValidationResult {
    ValidationResult::of(&raw::validate_mstp_frame(rule, data))
}

/// Holds octets to what a BVLC message must be.
pub fn validate_bacnet_ip_frame(data: &[u8]) -> ValidationResult {
    ValidationResult::of(&raw::validate_bacnet_ip_frame(data))
}

/// Holds octets to what an Ethernet frame must be, in the form of bacnet-rs (82 DC): a length there is an error.
pub fn validate_ethernet_frame(data: &[u8]) -> ValidationResult {
    ValidationResult::of(&raw::validate_ethernet_frame(data))
}

/// Tells from the octets which data link they are of, and holds them to it. Of Ethernet frames they tell those with
/// 82 DC: one with a length is of no link, or is taken for MS/TP or BACnet/IP where it begins 55 FF or 81.
pub fn validate_frame(rule: CheckRule, data: &[u8]) -> ValidationResult {
    ValidationResult::of(&raw::validate_frame(rule, data))
}
