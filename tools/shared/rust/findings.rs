// What the Rust's validators find. The Rust tells some of it in English: each text is looked for as it
// stands there, and any other stops the driver.

use bacnet::datalink::validation::{ValidationError, ValidationResult, ValidationWarning};
use bacnet::datalink::DataLinkType;

use crate::model::findings::{Entry, Findings, Link};
use crate::octets::number;

// The warning of a frame from a master to a slave.
const MASTER_TO_SLAVE: Entry = [3, 2, 0];

// The Rust's result.
pub fn told(result: &ValidationResult) -> Findings {
    Findings {
        valid: result.is_valid,
        link: link(&result.link_type),
        size: result.frame_size,
        errors: result.errors.iter().map(error).collect(),
        warnings: result.warnings.iter().map(warning).collect(),
    }
}

// The Rust's result for an MS/TP frame, as far as it holds under Annex G: data frames to a slave get no
// warning there.
pub fn told_under_annex_g(frame: &[u8], result: &ValidationResult) -> Findings {
    let mut found = told(result);
    if matches!(frame, [_, _, 5 | 6, ..]) {
        found.warnings.retain(|warning| *warning != MASTER_TO_SLAVE);
    }
    found
}

// The Rust's link kind.
fn link(kind: &Option<DataLinkType>) -> Link {
    match kind {
        None => Link::None,
        Some(DataLinkType::BacnetIp) => Link::Ip,
        Some(DataLinkType::Ethernet) => Link::Ethernet,
        Some(DataLinkType::MsTP) => Link::Mstp,
        Some(kind) => panic!("a link kind that no validator has: {kind:?}"),
    }
}

// An error of the Rust.
fn error(error: &ValidationError) -> Entry {
    match error {
        ValidationError::FrameTooShort { size, minimum } => [1, *size, *minimum],
        ValidationError::FrameTooLong { size, maximum } => [2, *size, *maximum],
        ValidationError::InvalidPreamble { expected, found } => {
            assert_eq!(expected.len(), found.len(), "octets of a preamble");
            [3, number(expected), number(found)]
        }
        ValidationError::CrcMismatch {
            expected,
            calculated,
        } => [4, *expected as usize, *calculated as usize],
        ValidationError::InvalidFrameType { value } => [5, usize::from(*value), 0],
        ValidationError::InvalidAddress { address, reason } => {
            assert_eq!(reason, "Source address cannot be broadcast (255)");
            [6, numeral(address, 10), 1]
        }
        ValidationError::InvalidHeader { reason } => header(reason),
        ValidationError::PayloadSizeMismatch { declared, actual } => [8, *declared, *actual],
    }
}

// The error of a header, by its text.
fn header(text: &str) -> Entry {
    if let Some(length) = between(text, "Data length ", " exceeds maximum 501") {
        return [7, 1, numeral(length, 10)];
    }
    if let Some(kind) = between(text, "Invalid Ethernet type: 0x", ", expected 0x82DC") {
        return [7, 2, numeral(kind, 16)];
    }
    if let Some(llc) = between(text, "Invalid LLC header: [", "], expected [82, 82, 03]") {
        let digits: Vec<&str> = llc.split(", ").collect();
        assert_eq!(digits.len(), 3, "octets in {text:?}");
        return [7, 3, numeral(&digits.concat(), 16)];
    }
    assert_eq!(text, "Unable to determine frame type", "an error's text");
    [7, 4, 0]
}

// A warning of the Rust.
fn warning(warning: &ValidationWarning) -> Entry {
    match warning {
        ValidationWarning::UnusualFrameSize { size } => [1, *size, 0],
        ValidationWarning::DeprecatedFrameType { .. } => panic!("warning 2, which never comes"),
        ValidationWarning::NonStandardConfiguration { reason } => non_standard(reason),
        ValidationWarning::SecurityWarning { reason } => security(reason),
    }
}

// The warning of something non-standard, by its text.
fn non_standard(text: &str) -> Entry {
    if let Some(kind) = between(text, "Proprietary frame type: ", "") {
        return [3, 1, numeral(kind, 10)];
    }
    match text {
        "Master communicating with slave without Test Request" => MASTER_TO_SLAVE,
        "Multicast address used instead of broadcast" => [3, 3, 0],
        _ => panic!("a warning of no reason: {text:?}"),
    }
}

// The warning of security, by its text.
fn security(text: &str) -> Entry {
    match text {
        "Secure BVLL should use proper encryption" => [4, 1, 0],
        "Table modification functions should be authenticated" => [4, 2, 0],
        _ => panic!("a warning of no reason: {text:?}"),
    }
}

// What stands in a text between its two ends, if it has them.
fn between<'a>(text: &'a str, front: &str, end: &str) -> Option<&'a str> {
    text.strip_prefix(front)?.strip_suffix(end)
}

// The number that digits of a base stand for.
fn numeral(digits: &str, base: u32) -> usize {
    match usize::from_str_radix(digits, base) {
        Ok(number) => number,
        Err(error) => panic!("the Rust tells {digits:?}: {error}"),
    }
}
