//! MS/TP frames.

use crate::cases::CheckRule;
use crate::error::Result;
use crate::raw;

pub use crate::cases::MstpFrameType;

/// The first octet of the preamble.
pub const MSTP_PREAMBLE_55: u8 = 0x55;
/// The second octet of the preamble.
pub const MSTP_PREAMBLE_FF: u8 = 0xFF;
/// How many data octets a written frame may have.
pub const MSTP_MAX_DATA_LENGTH: usize = 501;
/// How many octets a frame without data has.
pub const MSTP_HEADER_SIZE: usize = 8;
/// How many octets a written frame may have.
pub const MSTP_MAX_FRAME_SIZE: usize = MSTP_HEADER_SIZE + MSTP_MAX_DATA_LENGTH + 2;

/// A frame without its data: what [`decode_header`] gives beside them.
#[derive(Debug, Clone, Copy, PartialEq, Eq)]
pub struct MstpHeader {
    /// Its type.
    pub frame_type: MstpFrameType,
    /// The station it goes to.
    pub destination: u8,
    /// The station it comes from.
    pub source: u8,
    /// How many data octets it has.
    pub data_length: u16,
    /// Its header check.
    pub header_crc: u8,
    /// Its data check; none where it has no data.
    pub data_crc: Option<u16>,
}

/// A frame with its data.
#[derive(Debug, Clone, PartialEq, Eq)]
pub struct MstpFrame {
    /// Its type.
    pub frame_type: MstpFrameType,
    /// The station it goes to.
    pub destination: u8,
    /// The station it comes from.
    pub source: u8,
    /// How many data octets it had when it was made or read; `encode` ignores it.
    pub data_length: u16,
    /// Its header check when it was made or read; `encode` ignores it.
    pub header_crc: u8,
    /// Its data.
    pub data: Vec<u8>,
    /// Its data check when it was made or read, none where it had no data; `encode` ignores it.
    pub data_crc: Option<u16>,
}

impl MstpFrame {
    /// Makes a frame with its checks. Refused with 7 above 501 data octets.
    pub fn new(
        rule: CheckRule,
        frame_type: MstpFrameType,
        destination: u8,
        source: u8,
        data: Vec<u8>,
    ) -> Result<Self> {
        let mut octets = [0; MSTP_MAX_FRAME_SIZE];
        let count = encode_into(rule, frame_type, destination, source, &data, &mut octets)?;
        let (header, _) = decode_header(rule, &octets[..count])?;
        Ok(Self::with_data(header, data))
    }

    /// Makes a token.
    pub fn token(rule: CheckRule, destination: u8, source: u8) -> Result<Self> {
        Self::new(rule, MstpFrameType::Token, destination, source, Vec::new())
    }

    /// Makes a BACnet data frame.
    pub fn bacnet_data(
        rule: CheckRule,
        destination: u8,
        source: u8,
        data: Vec<u8>,
        expecting_reply: bool,
    ) -> Result<Self> {
        let frame_type = if expecting_reply {
            MstpFrameType::BacnetDataExpectingReply
        } else {
            MstpFrameType::BacnetDataNotExpectingReply
        };
        Self::new(rule, frame_type, destination, source, data)
    }

    /// The frame's octets, written from type, addresses and data; length and checks are calculated anew. Refused with 7
    /// above 501 data octets, which a frame that was read may have.
    ///
    /// ```
    /// use lefkanu::{datalink::mstp::MstpFrame, CheckRule};
    ///
    /// let frame = MstpFrame::token(CheckRule::AnnexG, 16, 5)?;
    /// assert_eq!(frame.encode(CheckRule::AnnexG)?, [0x55, 0xFF, 0x00, 0x10, 0x05, 0x00, 0x00, 0x8C]);
    /// assert_eq!(frame.encode(CheckRule::House)?, [0x55, 0xFF, 0x00, 0x10, 0x05, 0x00, 0x00, 0x9A]);
    /// # Ok::<(), lefkanu::datalink::DataLinkError>(())
    /// ```
    pub fn encode(&self, rule: CheckRule) -> Result<Vec<u8>> {
        let mut octets = [0; MSTP_MAX_FRAME_SIZE];
        let count = encode_into(
            rule,
            self.frame_type,
            self.destination,
            self.source,
            &self.data,
            &mut octets,
        )?;
        Ok(octets[..count].to_vec())
    }

    /// Reads a frame. Refused with 1 to 6.
    ///
    /// A written frame with one octet changed is refused; under [`CheckRule::House`] it is read where destination or
    /// source was XORed with 0xAB.
    ///
    /// ```
    /// use lefkanu::datalink::{mstp::MstpFrame, DataLinkError};
    /// use lefkanu::CheckRule;
    ///
    /// let octets = [0x55, 0xFF, 0x00, 0x10, 0x05, 0x00, 0x00, 0x8C];
    /// assert_eq!(MstpFrame::decode(CheckRule::AnnexG, &octets)?.source, 5);
    /// assert_eq!(MstpFrame::decode(CheckRule::House, &octets), Err(DataLinkError::CrcError(4)));
    /// # Ok::<(), DataLinkError>(())
    /// ```
    pub fn decode(rule: CheckRule, data: &[u8]) -> Result<Self> {
        let (header, data) = decode_header(rule, data)?;
        Ok(Self::with_data(header, data.to_vec()))
    }

    /// Whether it is a token.
    pub fn is_token(&self) -> bool {
        self.frame_type == MstpFrameType::Token
    }

    /// Whether it is a BACnet data frame.
    pub fn is_data(&self) -> bool {
        matches!(
            self.frame_type,
            MstpFrameType::BacnetDataExpectingReply | MstpFrameType::BacnetDataNotExpectingReply
        )
    }

    fn with_data(header: MstpHeader, data: Vec<u8>) -> Self {
        Self {
            frame_type: header.frame_type,
            destination: header.destination,
            source: header.source,
            data_length: header.data_length,
            header_crc: header.header_crc,
            data,
            data_crc: header.data_crc,
        }
    }
}

/// Reads a frame without a copy: its header, and its data as a part of the octets. Refused with 1 to 6.
///
/// ```
/// use lefkanu::{datalink::mstp::decode_header, CheckRule};
///
/// let octets = [0x55, 0xFF, 0x06, 0x05, 0x10, 0x00, 0x03, 0xDA, 0x01, 0x22, 0x30, 0x10, 0xBD];
/// let (header, data) = decode_header(CheckRule::AnnexG, &octets)?;
/// assert_eq!((header.source, data), (16, &[0x01, 0x22, 0x30][..]));
/// # Ok::<(), lefkanu::datalink::DataLinkError>(())
/// ```
pub fn decode_header(rule: CheckRule, data: &[u8]) -> Result<(MstpHeader, &[u8])> {
    let [frame_type, destination, source, header_crc, has_data_crc, data_crc, place, count] =
        raw::mstp_decode(rule, data)?;
    let header = MstpHeader {
        // Reading has asked question 3 already.
        frame_type: MstpFrameType::from_u8(frame_type as u8)
            .ok_or_else(|| raw::data_link_error(3))?,
        destination: destination as u8,
        source: source as u8,
        data_length: count as u16,
        header_crc: header_crc as u8,
        data_crc: (has_data_crc == 1).then_some(data_crc as u16),
    };
    Ok((header, &data[place..place + count]))
}

/// Writes a frame at the front of an output and answers how many octets it has; the rest stays. Refused with 7 or 8, and
/// then nothing is written.
///
/// ```
/// use lefkanu::datalink::mstp::{encode_into, MstpFrameType, MSTP_MAX_FRAME_SIZE};
/// use lefkanu::CheckRule;
///
/// let mut out = [0; MSTP_MAX_FRAME_SIZE];
/// let count = encode_into(CheckRule::House, MstpFrameType::Token, 16, 5, &[], &mut out)?;
/// assert_eq!(out[..count], [0x55, 0xFF, 0x00, 0x10, 0x05, 0x00, 0x00, 0x9A]);
/// # Ok::<(), lefkanu::datalink::DataLinkError>(())
/// ```
pub fn encode_into(
    rule: CheckRule,
    frame_type: MstpFrameType,
    destination: u8,
    source: u8,
    data: &[u8],
    out: &mut [u8],
) -> Result<usize> {
    raw::mstp_encode(rule, frame_type, destination, source, data, out)
}

/// The header check of the five octets after the preamble.
///
/// ```
/// use lefkanu::{datalink::mstp::calculate_header_crc, CheckRule};
///
/// assert_eq!(calculate_header_crc(CheckRule::AnnexG, &[0x00, 0x10, 0x05, 0x00, 0x00]), 0x8C);
/// assert_eq!(calculate_header_crc(CheckRule::House, &[0x00, 0x10, 0x05, 0x00, 0x00]), 0x9A);
/// ```
pub fn calculate_header_crc(rule: CheckRule, header: &[u8; 5]) -> u8 {
    raw::calculate_header_crc(rule, header)
}

/// The table of the header check, which controllers burn. Entry `i` is `i` after eight steps, each a shift right and,
/// if the bit shifted out was 1, an XOR with the rule's constant. A check starts with all bits one, becomes
/// `table[crc ^ octet]` with each octet, and is complemented at the end.
///
/// ```
/// use lefkanu::{datalink::mstp::header_table, CheckRule};
///
/// let table = header_table(CheckRule::AnnexG);
/// let mut crc = 0xFF;
/// for octet in [0x00, 0x10, 0x05, 0x00, 0x00] {
///     crc = table[usize::from(crc ^ octet)];
/// }
/// assert_eq!(!crc, 0x8C);
/// ```
pub fn header_table(rule: CheckRule) -> [u8; 256] {
    raw::header_table(rule)
}
