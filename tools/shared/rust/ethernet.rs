// Ethernet frames, read, validated and written by the Rust's ethernet.rs.

use bacnet::datalink::ethernet::{validate_ethernet_frame, EthernetDataLink, EthernetFrame};
use bacnet::datalink::{DataLink, DataLinkAddress};

use crate::model::ethernet::{Addresses, Frame, FIXED};
use crate::model::questions::RustError;
use crate::octets::hex;
use crate::rust::errors;

// What the Rust reads. It tells type and LLC octets too, which are always the same.
pub fn read(octets: &[u8]) -> Result<Frame<'_>, RustError> {
    let frame = EthernetFrame::decode(octets).map_err(errors::told)?;
    let fixed = [&frame.ether_type.to_be_bytes()[..], &frame.llc_header].concat();
    assert_eq!(fixed, FIXED, "the octets that the Rust read");
    let payload = &octets[octets.len() - frame.payload.len()..];
    assert_eq!(frame.payload, payload, "the payload of {}", hex(octets));
    Ok(Frame {
        addresses: [frame.dest_mac, frame.src_mac],
        payload,
    })
}

// What the Rust's validator says.
pub fn validate(octets: &[u8]) -> Result<(), RustError> {
    validate_ethernet_frame(octets).map_err(errors::told)
}

// What the Rust writes, once its sending has let the frame pass.
pub fn write(addresses: Addresses, payload: &[u8]) -> Result<Vec<u8>, RustError> {
    let [destination, source] = addresses;
    let mut link = EthernetDataLink::new("", source).expect("a link to nothing");
    link.send_frame(payload, &DataLinkAddress::Ethernet(destination))
        .map_err(errors::told)?;
    Ok(EthernetFrame::new(destination, source, payload.to_vec()).encode())
}
