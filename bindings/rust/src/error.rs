//! Errors, each with the number of the first question that failed.

use crate::questions;
use std::fmt;

#[cfg(test)]
mod tests;

/// The result of an operation on octets.
pub type Result<T> = std::result::Result<T, DataLinkError>;

/// Why octets were refused: the error of bacnet-rs, with the number of the first question that failed.
///
/// ```
/// use lefkanu::datalink::{bip::BvlcHeader, DataLinkError};
///
/// let error = BvlcHeader::decode(&[0x82, 0x0B, 0x00, 0x04]).unwrap_err();
/// assert_eq!(error, DataLinkError::InvalidFrame(12));
/// assert_eq!(error.to_string(), "Invalid frame format (question 12: begins 81?)");
/// ```
///
/// # The questions
///
/// In words, by number. docs/QUESTIONS.md says who asks which, and in which order. Octet values and BVLC functions are
/// hexadecimal, all else is decimal.
///
/// MS/TP frames:
///
/// | number | question |
/// |---|---|
/// | 1 | at least 8 octets? |
/// | 2 | begins 55 FF? |
/// | 3 | type 0 to 7? |
/// | 4 | header check right? |
/// | 5 | total exactly as the length says? |
/// | 6 | data check right? |
/// | 7 | at most 501 data octets? |
/// | 8 | does the frame fit the lent output? |
///
/// BVLC messages:
///
/// | number | question |
/// |---|---|
/// | 11 | at least 4 octets? |
/// | 12 | begins 81? |
/// | 13 | function 00 to 0C? |
/// | 14 | length equals the octets given? |
/// | 15 | at least one NPDU octet? |
/// | 16 | four octets of output? |
///
/// Ethernet frames:
///
/// | number | question |
/// |---|---|
/// | 21 | at least 17 octets? |
/// | 22 | 82 DC at octets 12 and 13? |
/// | 23 | 82 82 03 at octets 14 to 16? |
/// | 24 | at most 1514 octets? |
/// | 25 | does the frame fit the lent output? |
/// | 61 | length field 3 to 1500? |
/// | 62 | at least that many octets behind octet 13? |
///
/// Statistics, patterns, finder, whole reading:
///
/// | number | question |
/// |---|---|
/// | 31 | at most 65,535 octets? |
/// | 32 | do all entries fit the lent list? |
/// | 33 | place not beyond the end? |
///
/// The log:
///
/// | number | question |
/// |---|---|
/// | 47 | end within the log, used count within the buffer? |
/// | 41 | three octets left? |
/// | 42 | kind 1 to 3, in reading also 11 to 13? |
/// | 43 | payload length 1 to 1514? |
/// | 44 | do payload and time fit before the trailer? |
/// | 46 | does the record fit the buffer, with its time? |
///
/// Two answers of the C functions are no question and no error here. FE is `Ok(None)`; FF does not occur, since the enums
/// have only cases that the library knows, every `Option<u32>` is a time, and every `PaddingState` is a state:
///
/// | answer | name | what it says |
/// |---|---|---|
/// | FE | `LEFKANU_NONE` | the finder's "none", the log's "start reached" |
/// | FF | `LEFKANU_NO_CASE` | a number names no rule, form, frame type, function, time or state |
#[derive(Debug, Clone, Copy, PartialEq, Eq, Hash)]
pub enum DataLinkError {
    /// Octets that are no such frame or message, or too many to be written.
    InvalidFrame(u8),
    /// A check octet is wrong.
    CrcError(u8),
    /// A question that bacnet-rs does not ask: room in a lent output, the length field of an Ethernet frame, lengths
    /// and places, the log.
    Refused(u8),
}

impl DataLinkError {
    /// The number of the first question that failed; [above](#the-questions) are its words.
    pub fn question(&self) -> u8 {
        match *self {
            Self::InvalidFrame(question) | Self::CrcError(question) | Self::Refused(question) => {
                question
            }
        }
    }
}

impl fmt::Display for DataLinkError {
    fn fmt(&self, f: &mut fmt::Formatter<'_>) -> fmt::Result {
        let name = match self {
            Self::InvalidFrame(_) => "Invalid frame format",
            Self::CrcError(_) => "CRC check failed",
            Self::Refused(_) => "Refused",
        };
        let question = self.question();
        match questions::text(question) {
            Some(text) => write!(f, "{name} (question {question}: {text})"),
            None => write!(f, "{name} (question {question})"),
        }
    }
}

impl std::error::Error for DataLinkError {}
