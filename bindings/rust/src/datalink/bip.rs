//! BVLC messages of BACnet/IP.

use crate::error::{DataLinkError, Result};
use crate::raw::{self, Carried};

pub use crate::cases::BvlcFunction;

impl TryFrom<u8> for BvlcFunction {
    type Error = DataLinkError;

    /// The function of a number. Refused with 13 above 0C.
    fn try_from(value: u8) -> Result<Self> {
        Ok(match value {
            0x00 => Self::Result,
            0x01 => Self::WriteBroadcastDistributionTable,
            0x02 => Self::ReadBroadcastDistributionTable,
            0x03 => Self::ReadBroadcastDistributionTableAck,
            0x04 => Self::ForwardedNpdu,
            0x05 => Self::RegisterForeignDevice,
            0x06 => Self::ReadForeignDeviceTable,
            0x07 => Self::ReadForeignDeviceTableAck,
            0x08 => Self::DeleteForeignDeviceTableEntry,
            0x09 => Self::DistributeBroadcastToNetwork,
            0x0A => Self::OriginalUnicastNpdu,
            0x0B => Self::OriginalBroadcastNpdu,
            0x0C => Self::SecureBvll,
            _ => return Err(raw::data_link_error(13)),
        })
    }
}

/// The four octets in front of a message.
#[derive(Debug, Clone, Copy, PartialEq, Eq)]
pub struct BvlcHeader {
    /// 81 in every header that is made or read here; `encode` ignores it.
    pub bvlc_type: u8,
    /// Its function.
    pub function: BvlcFunction,
    /// The length it declares for the whole message.
    pub length: u16,
}

impl BvlcHeader {
    /// Makes a header of type 81.
    pub fn new(function: BvlcFunction, length: u16) -> Self {
        Self {
            bvlc_type: 0x81,
            function,
            length,
        }
    }

    /// The header's octets: 81, whatever `bvlc_type` has, then function and length.
    ///
    /// ```
    /// use lefkanu::datalink::bip::{BvlcFunction, BvlcHeader};
    ///
    /// let header = BvlcHeader::new(BvlcFunction::OriginalUnicastNpdu, 100);
    /// assert_eq!(header.encode(), [0x81, 0x0A, 0x00, 0x64]);
    /// ```
    pub fn encode(&self) -> Vec<u8> {
        let mut octets = [0; 4];
        // The one question of writing, 16, is answered: four octets are there.
        let written = self.encode_into(&mut octets);
        debug_assert_eq!(written, Ok(4));
        octets.to_vec()
    }

    /// Writes the header at the front of an output and answers 4; the rest stays. Refused with 16 below four octets, and
    /// then nothing is written.
    pub fn encode_into(&self, out: &mut [u8]) -> Result<usize> {
        raw::bvlc_encode(self.function, self.length, out)
    }

    /// Reads the header in front of a message, and does not look at its length. Refused with 11 to 13.
    ///
    /// ```
    /// use lefkanu::datalink::bip::BvlcHeader;
    ///
    /// assert_eq!(BvlcHeader::decode(&[0x81, 0x0A, 0x00, 0x64])?.length, 100);
    /// # Ok::<(), lefkanu::datalink::DataLinkError>(())
    /// ```
    pub fn decode(data: &[u8]) -> Result<Self> {
        let [function, length] = raw::bvlc_decode(data)?;
        // Reading has asked question 13 already.
        Ok(Self::new(
            BvlcFunction::try_from(function as u8)?,
            length as u16,
        ))
    }
}

/// What a message carries.
#[derive(Debug, Clone, Copy, PartialEq, Eq)]
pub enum BvlcMessage<'a> {
    /// The NPDU of functions 0A, 0B and 04.
    Npdu(&'a [u8]),
    /// The seconds of a registration, function 05 of exactly six octets; bacnet-rs stores them.
    TimeToLive(u16),
    /// None of these; so also function 09.
    NoNpdu,
}

/// What a message carries. Refused with 11 to 15.
///
/// ```
/// use lefkanu::datalink::bip::{process_bvlc_message, BvlcMessage};
///
/// let registration = [0x81, 0x05, 0x00, 0x06, 0x01, 0x2C];
/// assert_eq!(process_bvlc_message(&registration)?, BvlcMessage::TimeToLive(300));
/// # Ok::<(), lefkanu::datalink::DataLinkError>(())
/// ```
pub fn process_bvlc_message(data: &[u8]) -> Result<BvlcMessage<'_>> {
    Ok(match raw::process_bvlc_message(data)? {
        Carried::Npdu { place, count } => BvlcMessage::Npdu(&data[place..place + count]),
        Carried::TimeToLive(seconds) => BvlcMessage::TimeToLive(seconds),
        Carried::NoNpdu => BvlcMessage::NoNpdu,
    })
}

/// The NPDU of a message; none where it carries none. Refused with 11 to 15.
///
/// ```
/// use lefkanu::datalink::bip::npdu;
///
/// assert_eq!(npdu(&[0x81, 0x0B, 0x00, 0x06, 0x01, 0x20])?, Some(&[0x01, 0x20][..]));
/// assert_eq!(npdu(&[0x81, 0x06, 0x00, 0x04])?, None);
/// # Ok::<(), lefkanu::datalink::DataLinkError>(())
/// ```
pub fn npdu(data: &[u8]) -> Result<Option<&[u8]>> {
    Ok(match process_bvlc_message(data)? {
        BvlcMessage::Npdu(npdu) => Some(npdu),
        BvlcMessage::TimeToLive(_) | BvlcMessage::NoNpdu => None,
    })
}
