//! Ethernet frames, in the two forms that [`EthernetForm`] names. Functions that take no form are for
//! [`EthernetForm::EtherType`], the one of bacnet-rs.

use crate::error::Result;
use crate::raw;

pub use crate::cases::EthernetForm;

/// The address of all stations.
pub const ETHERNET_BROADCAST_MAC: [u8; 6] = [0xFF; 6];
/// What stands after the addresses in form [`EthernetForm::EtherType`], where clause 7 has a length.
pub const BACNET_ETHERNET_TYPE: u16 = 0x82DC;
/// The LLC header of BACnet.
pub const BACNET_LLC_HEADER: [u8; 3] = [0x82, 0x82, 0x03];
/// How many octets a written frame has at least.
pub const MIN_ETHERNET_FRAME_SIZE: usize = 60;
/// How many octets a written frame has at most, and one that is read in form [`EthernetForm::Length`].
pub const MAX_ETHERNET_FRAME_SIZE: usize = 1514;
/// Octets of addresses and of type or length.
pub const ETHERNET_HEADER_SIZE: usize = 14;
/// Octets of the LLC header.
pub const LLC_HEADER_SIZE: usize = 3;
/// Octets in front of the payload.
pub const BACNET_ETHERNET_HEADER_SIZE: usize = ETHERNET_HEADER_SIZE + LLC_HEADER_SIZE;

/// A frame without its payload: what [`decode_header`] and [`decode_header_form`] give beside it.
#[derive(Debug, Clone, Copy, PartialEq, Eq)]
pub struct EthernetHeader {
    /// The address it goes to.
    pub dest_mac: [u8; 6],
    /// The address it comes from.
    pub src_mac: [u8; 6],
}

/// A frame with its payload.
#[derive(Debug, Clone, PartialEq, Eq)]
pub struct EthernetFrame {
    /// The address it goes to.
    pub dest_mac: [u8; 6],
    /// The address it comes from.
    pub src_mac: [u8; 6],
    /// The number at octets 12 and 13. 82 DC in every frame that is made here or read in form
    /// [`EthernetForm::EtherType`], the length in one that was read in form [`EthernetForm::Length`]; `encode` and
    /// `encode_form` ignore it.
    pub ether_type: u16,
    /// 82 82 03 in every frame that is made or read here; `encode` and `encode_form` ignore it.
    pub llc_header: [u8; 3],
    /// Its payload; of a frame that was read in form [`EthernetForm::EtherType`], with the padding.
    pub payload: Vec<u8>,
}

impl EthernetFrame {
    /// Makes a frame.
    pub fn new(dest_mac: [u8; 6], src_mac: [u8; 6], npdu: Vec<u8>) -> Self {
        Self {
            dest_mac,
            src_mac,
            ether_type: BACNET_ETHERNET_TYPE,
            llc_header: BACNET_LLC_HEADER,
            payload: npdu,
        }
    }

    /// Makes a frame to all stations.
    pub fn broadcast(src_mac: [u8; 6], npdu: Vec<u8>) -> Self {
        Self::new(ETHERNET_BROADCAST_MAC, src_mac, npdu)
    }

    /// The frame's octets in form [`EthernetForm::EtherType`], zeros up to 60: 82 DC and 82 82 03, whatever
    /// `ether_type` and `llc_header` have. Refused with 24 above 1514 octets, as sending is in bacnet-rs.
    ///
    /// ```
    /// use lefkanu::datalink::ethernet::{validate_ethernet_frame, EthernetFrame};
    ///
    /// let octets = EthernetFrame::broadcast([0, 0x11, 0x22, 0x33, 0x44, 0x55], vec![1, 0x20]).encode()?;
    /// assert_eq!(octets.len(), 60);
    /// validate_ethernet_frame(&octets)?;
    /// # Ok::<(), lefkanu::datalink::DataLinkError>(())
    /// ```
    pub fn encode(&self) -> Result<Vec<u8>> {
        let mut octets = [0; MAX_ETHERNET_FRAME_SIZE];
        let count = encode_into(&self.dest_mac, &self.src_mac, &self.payload, &mut octets)?;
        Ok(octets[..count].to_vec())
    }

    /// The frame's octets in a form, zeros up to 60: 82 DC or the length, and 82 82 03, whatever `ether_type` and
    /// `llc_header` have. Refused with 24 above 1514 octets.
    ///
    /// In form [`EthernetForm::Length`] the payload is read back as it was, without the zeros:
    ///
    /// ```
    /// use lefkanu::datalink::ethernet::{EthernetForm, EthernetFrame};
    ///
    /// let frame = EthernetFrame::broadcast([0, 0x11, 0x22, 0x33, 0x44, 0x55], vec![1, 0x20]);
    /// let octets = frame.encode_form(EthernetForm::Length)?;
    /// assert_eq!((octets.len(), &octets[12..19]), (60, &[0, 5, 0x82, 0x82, 0x03, 1, 0x20][..]));
    /// let read = EthernetFrame::decode_form(EthernetForm::Length, &octets)?;
    /// assert_eq!((read.payload, read.ether_type), (vec![1, 0x20], 5));
    /// # Ok::<(), lefkanu::datalink::DataLinkError>(())
    /// ```
    pub fn encode_form(&self, form: EthernetForm) -> Result<Vec<u8>> {
        let mut octets = [0; MAX_ETHERNET_FRAME_SIZE];
        let (dest_mac, src_mac) = (&self.dest_mac, &self.src_mac);
        let count = encode_into_form(form, dest_mac, src_mac, &self.payload, &mut octets)?;
        Ok(octets[..count].to_vec())
    }

    /// Reads a frame in form [`EthernetForm::EtherType`]; padding stays in the payload. Refused with 21 to 23.
    pub fn decode(data: &[u8]) -> Result<Self> {
        let (header, payload) = decode_header(data)?;
        Ok(Self::new(header.dest_mac, header.src_mac, payload.to_vec()))
    }

    /// Reads a frame in a form. In form [`EthernetForm::Length`] the payload has as many octets as the length says, less
    /// 3; what is behind them is ignored, whatever it is. Refused with 21 to 23; in form [`EthernetForm::Length`] with
    /// 21, 24, 61, 62 or 23.
    ///
    /// A frame of one form is refused in the other:
    ///
    /// ```
    /// use lefkanu::datalink::ethernet::{EthernetForm, EthernetFrame};
    /// use lefkanu::datalink::DataLinkError::{InvalidFrame, Refused};
    ///
    /// let frame = EthernetFrame::broadcast([0, 0x11, 0x22, 0x33, 0x44, 0x55], vec![1, 0x20]);
    /// let with_length = frame.encode_form(EthernetForm::Length)?;
    /// let refused = EthernetFrame::decode_form(EthernetForm::EtherType, &with_length);
    /// assert_eq!(refused, Err(InvalidFrame(22)));
    /// let with_type = frame.encode_form(EthernetForm::EtherType)?;
    /// let refused = EthernetFrame::decode_form(EthernetForm::Length, &with_type);
    /// assert_eq!(refused, Err(Refused(61)));
    /// # Ok::<(), lefkanu::datalink::DataLinkError>(())
    /// ```
    pub fn decode_form(form: EthernetForm, data: &[u8]) -> Result<Self> {
        let (header, payload) = decode_header_form(form, data)?;
        let mut frame = Self::new(header.dest_mac, header.src_mac, payload.to_vec());
        // Reading has asked question 21 already.
        frame.ether_type = u16::from_be_bytes([data[12], data[13]]);
        Ok(frame)
    }

    /// Whether it goes to all stations.
    pub fn is_broadcast(&self) -> bool {
        self.dest_mac == ETHERNET_BROADCAST_MAC
    }

    /// Whether it goes to several stations, or to all.
    pub fn is_multicast(&self) -> bool {
        self.dest_mac[0] & 0x01 == 0x01
    }
}

/// Reads a frame in form [`EthernetForm::EtherType`] without a copy: its addresses, and its payload as a part of the
/// octets, padding and all. Refused with 21 to 23.
///
/// ```
/// use lefkanu::datalink::ethernet::decode_header;
///
/// let octets = [1, 2, 3, 4, 5, 6, 7, 8, 9, 10, 11, 12, 0x82, 0xDC, 0x82, 0x82, 0x03, 0x01, 0x20];
/// let (header, payload) = decode_header(&octets)?;
/// assert_eq!((header.src_mac, payload), ([7, 8, 9, 10, 11, 12], &[0x01, 0x20][..]));
/// # Ok::<(), lefkanu::datalink::DataLinkError>(())
/// ```
pub fn decode_header(data: &[u8]) -> Result<(EthernetHeader, &[u8])> {
    let (dest_mac, src_mac, [place, count]) = raw::ethernet_decode(data)?;
    let header = EthernetHeader { dest_mac, src_mac };
    Ok((header, &data[place..place + count]))
}

/// Reads a frame in a form without a copy: its addresses, and its payload as a part of the octets, in form
/// [`EthernetForm::EtherType`] padding and all. Refused as [`EthernetFrame::decode_form`] is.
///
/// ```
/// use lefkanu::datalink::ethernet::{decode_header_form, EthernetForm};
///
/// let octets = [1, 2, 3, 4, 5, 6, 7, 8, 9, 10, 11, 12, 0, 5, 0x82, 0x82, 0x03, 0x01, 0x20, 0, 0];
/// let (header, payload) = decode_header_form(EthernetForm::Length, &octets)?;
/// assert_eq!((header.src_mac, payload), ([7, 8, 9, 10, 11, 12], &[0x01, 0x20][..]));
/// # Ok::<(), lefkanu::datalink::DataLinkError>(())
/// ```
pub fn decode_header_form(form: EthernetForm, data: &[u8]) -> Result<(EthernetHeader, &[u8])> {
    let (dest_mac, src_mac, [place, count]) = raw::ethernet_decode_form(form, data)?;
    let header = EthernetHeader { dest_mac, src_mac };
    Ok((header, &data[place..place + count]))
}

/// Writes a frame in form [`EthernetForm::EtherType`] at the front of an output and answers how many octets it has; the
/// rest stays. Refused with 24 or 25, and then nothing is written.
pub fn encode_into(
    dest_mac: &[u8; 6],
    src_mac: &[u8; 6],
    payload: &[u8],
    out: &mut [u8],
) -> Result<usize> {
    raw::ethernet_encode(dest_mac, src_mac, payload, out)
}

/// Writes a frame in a form, as [`encode_into`] does. Refused with 24 or 25, and then nothing is written.
///
/// ```
/// use lefkanu::datalink::ethernet::{encode_into_form, EthernetForm, MAX_ETHERNET_FRAME_SIZE};
///
/// let mut out = [0; MAX_ETHERNET_FRAME_SIZE];
/// let count = encode_into_form(EthernetForm::Length, &[1; 6], &[2; 6], &[0x01, 0x20], &mut out)?;
/// assert_eq!((count, &out[12..19]), (60, &[0, 5, 0x82, 0x82, 0x03, 0x01, 0x20][..]));
/// # Ok::<(), lefkanu::datalink::DataLinkError>(())
/// ```
pub fn encode_into_form(
    form: EthernetForm,
    dest_mac: &[u8; 6],
    src_mac: &[u8; 6],
    payload: &[u8],
    out: &mut [u8],
) -> Result<usize> {
    raw::ethernet_encode_form(form, dest_mac, src_mac, payload, out)
}

/// Whether a frame is one of BACnet, of at most 1514 octets, in form [`EthernetForm::EtherType`]. Refused with 21, 24,
/// 22 or 23.
pub fn validate_ethernet_frame(data: &[u8]) -> Result<()> {
    raw::ethernet_validate(data)
}
