//! Errors and warnings of the validators.

use super::reasons::{AddressReason, ConfigurationReason, HeaderReason, SecurityReason};

/// What makes a frame invalid.
#[derive(Debug, Clone, PartialEq, Eq)]
pub enum ValidationError {
    /// Too few octets.
    FrameTooShort {
        /// How many there are.
        size: usize,
        /// How many there must be.
        minimum: usize,
    },
    /// Too many octets.
    FrameTooLong {
        /// How many there are.
        size: usize,
        /// How many there may be.
        maximum: usize,
    },
    /// Other octets in front: of an MS/TP frame two, of a BVLC message one.
    InvalidPreamble {
        /// 55 FF, or 81.
        expected: Vec<u8>,
        /// What is there.
        found: Vec<u8>,
    },
    /// A wrong check.
    CrcMismatch {
        /// The check received.
        expected: u32,
        /// The check that the octets have.
        calculated: u32,
    },
    /// A type or function that is none.
    InvalidFrameType {
        /// Its number.
        value: u8,
    },
    /// A station address that can't be.
    InvalidAddress {
        /// The address.
        address: u8,
        /// Why.
        reason: AddressReason,
    },
    /// A header that can't be.
    InvalidHeader {
        /// Why, with what was found.
        reason: HeaderReason,
    },
    /// Another size than the header says.
    PayloadSizeMismatch {
        /// What the header says of the whole frame.
        declared: usize,
        /// How many octets there are.
        actual: usize,
    },
}

/// What is unusual in a frame and leaves it valid.
#[derive(Debug, Clone, PartialEq, Eq)]
pub enum ValidationWarning {
    /// A size that hints at padding.
    UnusualFrameSize {
        /// The size.
        size: usize,
    },
    /// An outdated type; as in bacnet-rs, no validator gives it.
    DeprecatedFrameType {
        /// The type.
        frame_type: u8,
    },
    /// Not standard.
    NonStandardConfiguration {
        /// What.
        reason: ConfigurationReason,
    },
    /// A possible risk.
    SecurityWarning {
        /// Which.
        reason: SecurityReason,
    },
}

/// The error of an entry: a kind, 1 to 8, and two numbers.
pub(super) fn error(entry: &[usize]) -> ValidationError {
    let (first, second) = (entry[1], entry[2]);
    match entry[0] {
        1 => ValidationError::FrameTooShort {
            size: first,
            minimum: second,
        },
        2 => ValidationError::FrameTooLong {
            size: first,
            maximum: second,
        },
        3 => ValidationError::InvalidPreamble {
            expected: preamble(first, first),
            found: preamble(first, second),
        },
        4 => ValidationError::CrcMismatch {
            expected: first as u32,
            calculated: second as u32,
        },
        5 => ValidationError::InvalidFrameType { value: first as u8 },
        6 => ValidationError::InvalidAddress {
            address: first as u8,
            reason: AddressReason::SourceIsBroadcast,
        },
        7 => ValidationError::InvalidHeader {
            reason: header_reason(first, second),
        },
        8 => ValidationError::PayloadSizeMismatch {
            declared: first,
            actual: second,
        },
        kind => unreachable!("no error has the kind {kind}"),
    }
}

/// The warning of an entry: a kind, 1 to 4, and two numbers.
pub(super) fn warning(entry: &[usize]) -> ValidationWarning {
    let (first, second) = (entry[1], entry[2]);
    match entry[0] {
        1 => ValidationWarning::UnusualFrameSize { size: first },
        2 => ValidationWarning::DeprecatedFrameType {
            frame_type: first as u8,
        },
        3 => ValidationWarning::NonStandardConfiguration {
            reason: configuration_reason(first, second),
        },
        4 => ValidationWarning::SecurityWarning {
            reason: security_reason(first),
        },
        kind => unreachable!("no warning has the kind {kind}"),
    }
}

/// The octets of a preamble: two if two are expected, else one.
fn preamble(expected: usize, octets: usize) -> Vec<u8> {
    if expected > 0xFF {
        (octets as u16).to_be_bytes().to_vec()
    } else {
        vec![octets as u8]
    }
}

fn header_reason(reason: usize, found: usize) -> HeaderReason {
    match reason {
        1 => HeaderReason::DataLength(found as u16),
        2 => HeaderReason::EthernetType(found as u16),
        3 => HeaderReason::LlcHeader([(found >> 16) as u8, (found >> 8) as u8, found as u8]),
        4 => HeaderReason::Undetermined,
        _ => unreachable!("no header has the reason {reason}"),
    }
}

fn configuration_reason(reason: usize, found: usize) -> ConfigurationReason {
    match reason {
        1 => ConfigurationReason::ProprietaryType(found as u8),
        2 => ConfigurationReason::MasterToSlave,
        3 => ConfigurationReason::Multicast,
        _ => unreachable!("no configuration has the reason {reason}"),
    }
}

fn security_reason(reason: usize) -> SecurityReason {
    match reason {
        1 => SecurityReason::SecureBvll,
        2 => SecurityReason::TableModification,
        _ => unreachable!("no security warning has the reason {reason}"),
    }
}
