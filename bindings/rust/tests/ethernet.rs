//! Ethernet frames.

mod common;

use common::octets;
use lefkanu::datalink::ethernet::EthernetForm::{self, EtherType, Length};
use lefkanu::datalink::ethernet::{
    decode_header, decode_header_form, encode_into, encode_into_form, validate_ethernet_frame,
    EthernetFrame, EthernetHeader, BACNET_ETHERNET_HEADER_SIZE, BACNET_ETHERNET_TYPE,
    BACNET_LLC_HEADER, ETHERNET_BROADCAST_MAC, ETHERNET_HEADER_SIZE, LLC_HEADER_SIZE,
    MAX_ETHERNET_FRAME_SIZE, MIN_ETHERNET_FRAME_SIZE,
};
use lefkanu::datalink::DataLinkError::{self, InvalidFrame, Refused};

const DEST: [u8; 6] = [0x66, 0x77, 0x88, 0x99, 0xAA, 0xBB];
const SRC: [u8; 6] = [0x00, 0x11, 0x22, 0x33, 0x44, 0x55];
const FRONT: &str = "66 77 88 99 AA BB 00 11 22 33 44 55 82 DC 82 82 03";

/// Both forms.
const FORMS: [EthernetForm; 2] = [EtherType, Length];

/// A frame of so many octets, its payload all 41.
fn frame(size: usize) -> Vec<u8> {
    let mut frame = octets(FRONT);
    frame.resize(size, 0x41);
    frame
}

/// The same with a length field.
fn with_length(size: usize, length: u16) -> Vec<u8> {
    let mut frame = frame(size);
    frame[12..14].copy_from_slice(&length.to_be_bytes());
    frame
}

#[test]
fn constants() {
    assert_eq!(ETHERNET_BROADCAST_MAC, [0xFF; 6]);
    assert_eq!(BACNET_ETHERNET_TYPE, 0x82DC);
    assert_eq!(BACNET_LLC_HEADER, [0x82, 0x82, 0x03]);
    assert_eq!(MIN_ETHERNET_FRAME_SIZE, 60);
    assert_eq!(MAX_ETHERNET_FRAME_SIZE, 1514);
    assert_eq!((ETHERNET_HEADER_SIZE, LLC_HEADER_SIZE), (14, 3));
    assert_eq!(BACNET_ETHERNET_HEADER_SIZE, 17);
}

#[test]
fn addresses() {
    let to_all = EthernetFrame::broadcast(SRC, vec![1]);
    assert_eq!(to_all.dest_mac, [0xFF; 6]);
    assert!(to_all.is_broadcast() && to_all.is_multicast());
    let to_some = EthernetFrame::new([0x01, 0, 0x5E, 0, 0, 1], SRC, vec![1]);
    assert!(!to_some.is_broadcast() && to_some.is_multicast());
    let to_one = EthernetFrame::new(DEST, SRC, vec![1]);
    assert!(!to_one.is_broadcast() && !to_one.is_multicast());
}

#[test]
fn encode_pads_to_60() {
    for (payload, size) in [(0, 60), (2, 60), (43, 60), (44, 61), (1497, 1514)] {
        let octets = EthernetFrame::new(DEST, SRC, vec![0x41; payload])
            .encode()
            .unwrap();
        let mut expected = frame(17 + payload);
        expected.resize(size, 0);
        assert_eq!(octets, expected);
    }
}

#[test]
fn encode_refuses_1515_octets() {
    let refused = EthernetFrame::new(DEST, SRC, vec![0x41; 1498]).encode();
    assert_eq!(refused, Err(InvalidFrame(24)));
}

#[test]
fn decode() {
    for size in [17, 18, 60, 1514, 1515, 3000] {
        let read = EthernetFrame::decode(&frame(size)).unwrap();
        assert_eq!((read.dest_mac, read.src_mac), (DEST, SRC));
        assert_eq!(read.ether_type, 0x82DC);
        assert_eq!(read.llc_header, [0x82, 0x82, 0x03]);
        assert_eq!(read.payload, vec![0x41; size - 17]);
        let by_form = EthernetFrame::decode_form(EtherType, &frame(size));
        assert_eq!(by_form, Ok(read));
    }
}

#[test]
fn decode_header_lends_the_payload() {
    let frame = frame(30);
    let (header, payload) = decode_header(&frame).unwrap();
    let expected = EthernetHeader {
        dest_mac: DEST,
        src_mac: SRC,
    };
    assert_eq!(header, expected);
    assert_eq!(payload, [0x41; 13]);
    assert_eq!(payload.as_ptr(), frame[17..].as_ptr());
}

#[test]
fn decode_refusals() {
    let mut other_type = frame(20);
    other_type[13] = 0xDD;
    let mut other_llc = frame(20);
    other_llc[16] = 0xE3;
    let mut both = other_type.clone();
    both[14] = 0;
    for (refusal, frame) in [
        (21, vec![]),
        (21, frame(16)),
        (21, both[..16].to_vec()),
        (22, other_type),
        (22, both),
        (23, other_llc),
    ] {
        let refusal = InvalidFrame(refusal);
        assert_eq!(EthernetFrame::decode(&frame), Err(refusal));
        let by_form = EthernetFrame::decode_form(EtherType, &frame);
        assert_eq!(by_form, Err(refusal));
        assert_eq!(decode_header(&frame), Err(refusal));
        assert_eq!(decode_header_form(EtherType, &frame), Err(refusal));
        assert_eq!(validate_ethernet_frame(&frame), Err(refusal));
    }
}

#[test]
fn validate() {
    assert_eq!(validate_ethernet_frame(&frame(17)), Ok(()));
    assert_eq!(validate_ethernet_frame(&frame(1514)), Ok(()));
    let mut long = frame(1515);
    assert_eq!(validate_ethernet_frame(&long), Err(InvalidFrame(24)));
    // Questions 22 and 23 fail too: the first is answered.
    long[12..17].fill(0);
    assert_eq!(validate_ethernet_frame(&long), Err(InvalidFrame(24)));
}

#[test]
fn encode_into_leaves_the_rest() {
    let mut out = [0xA5; 64];
    assert_eq!(encode_into(&DEST, &SRC, &[0x41, 0x42], &mut out), Ok(60));
    assert_eq!(out[..17].to_vec(), octets(FRONT));
    assert_eq!(out[17..19], [0x41, 0x42]);
    assert_eq!(out[19..60], [0; 41]);
    assert_eq!(out[60..], [0xA5; 4]);
}

#[test]
fn encode_into_refusals() {
    for (refusal, payload, room) in [
        (InvalidFrame(24), 1498, 2000),
        // Both questions fail: the first is answered.
        (InvalidFrame(24), 1498, 0),
        (Refused(25), 0, 59),
        (Refused(25), 44, 60),
        (Refused(25), 1497, 1513),
    ] {
        let mut out = vec![0xA5; room];
        let count = encode_into(&DEST, &SRC, &vec![0x41; payload], &mut out);
        assert_eq!(count, Err(refusal));
        assert_eq!(out, vec![0xA5; room]);
    }
}

#[test]
fn numbers_of_forms() {
    assert_eq!(FORMS.map(|form| form as u8), [0, 1]);
}

#[test]
fn decode_length() {
    for (size, length) in [(17, 3), (18, 4), (60, 46), (60, 45), (60, 3), (1514, 1500)] {
        let read = EthernetFrame::decode_form(Length, &with_length(size, length)).unwrap();
        assert_eq!((read.dest_mac, read.src_mac), (DEST, SRC));
        assert_eq!(read.ether_type, length);
        assert_eq!(read.llc_header, [0x82, 0x82, 0x03]);
        assert_eq!(read.payload, vec![0x41; usize::from(length) - 3]);
    }
}

#[test]
fn decode_header_form_lends_the_payload() {
    for (form, frame, count) in [
        (EtherType, frame(30), 13),
        (Length, with_length(30, 16), 13),
        (Length, with_length(30, 9), 6),
    ] {
        let (header, payload) = decode_header_form(form, &frame).unwrap();
        let expected = EthernetHeader {
            dest_mac: DEST,
            src_mac: SRC,
        };
        assert_eq!(header, expected);
        assert_eq!(payload, &frame[17..17 + count]);
        assert_eq!(payload.as_ptr(), frame[17..].as_ptr());
    }
}

#[test]
fn octets_behind_the_payload() {
    for behind in [
        vec![],
        vec![0],
        vec![0; 41],
        vec![0xFF; 41],
        octets("82 DC"),
        octets(FRONT),
        vec![0x42; 1495],
    ] {
        let frame = [with_length(19, 5), behind].concat();
        let read = EthernetFrame::decode_form(Length, &frame).unwrap();
        assert_eq!((read.ether_type, read.payload), (5, vec![0x41; 2]));
    }
}

#[test]
fn decode_length_refusals() {
    let with_llc = |size, length, llc: [u8; 3]| {
        let mut frame = with_length(size, length);
        frame[14..17].copy_from_slice(&llc);
        frame
    };
    let other = [0xAA, 0xAA, 0x03];
    for (refusal, frame) in [
        (InvalidFrame(21), vec![]),
        (InvalidFrame(21), with_length(16, 3)),
        (InvalidFrame(24), with_length(1515, 1500)),
        (Refused(61), with_length(60, 0)),
        (Refused(61), with_length(60, 2)),
        (Refused(61), with_length(1514, 1501)),
        (Refused(61), frame(60)),
        (Refused(62), with_length(17, 4)),
        (Refused(62), with_length(60, 47)),
        (Refused(62), with_length(1513, 1500)),
        (InvalidFrame(23), with_llc(60, 3, [0x83, 0x82, 0x03])),
        (InvalidFrame(23), with_llc(60, 3, [0x82, 0x83, 0x03])),
        (InvalidFrame(23), with_llc(60, 3, [0x82, 0x82, 0xE3])),
        // Several questions fail: the first is answered.
        (InvalidFrame(21), with_length(16, 2)),
        (InvalidFrame(24), with_llc(1515, 2, other)),
        (InvalidFrame(24), with_llc(1515, 1501, other)),
        (InvalidFrame(24), frame(1515)),
        (Refused(61), with_llc(17, 2, other)),
        (Refused(61), with_llc(1513, 1501, other)),
        (Refused(62), with_llc(17, 4, other)),
    ] {
        let read = EthernetFrame::decode_form(Length, &frame);
        assert_eq!(read, Err(refusal));
        assert_eq!(decode_header_form(Length, &frame), Err(refusal));
    }
}

/// How many octets of payload a frame of so many octets has, or the refusal.
fn counted(size: usize, length: usize) -> Result<usize, DataLinkError> {
    if size > 1514 {
        return Err(InvalidFrame(24));
    }
    match length {
        3..=1500 if length > size - 14 => Err(Refused(62)),
        3..=1500 => Ok(length - 3),
        _ => Err(Refused(61)),
    }
}

#[test]
fn every_length() {
    for size in [17, 18, 60, 300, 1513, 1514, 1515] {
        let mut frame = frame(size);
        for length in 0..=u16::MAX {
            frame[12..14].copy_from_slice(&length.to_be_bytes());
            let payload = decode_header_form(Length, &frame).map(|(_, payload)| payload);
            let expected = counted(size, length.into()).map(|count| &frame[17..17 + count]);
            assert_eq!(payload, expected, "size {size}, length {length}");
        }
    }
}

#[test]
fn every_size_of_payload() {
    for size in 0..=1497 {
        let payload: Vec<u8> = (0..size).map(|place| place as u8).collect();
        let frame = EthernetFrame::new(DEST, SRC, payload.clone());
        let with_type = frame.encode_form(EtherType).unwrap();
        assert_eq!(frame.encode(), Ok(with_type.clone()));
        let mut padded = payload.clone();
        padded.resize(size.max(43), 0);
        let read = EthernetFrame::decode_form(EtherType, &with_type);
        assert_eq!(read, Ok(EthernetFrame::new(DEST, SRC, padded)));

        let with_length = frame.encode_form(Length).unwrap();
        let mut expected = with_type.clone();
        let length = size as u16 + 3;
        expected[12..14].copy_from_slice(&length.to_be_bytes());
        assert_eq!(with_length, expected);
        let mut expected = frame.clone();
        expected.ether_type = length;
        let read = EthernetFrame::decode_form(Length, &with_length).unwrap();
        assert_eq!(read, expected);
        // Its type is ignored.
        assert_eq!(read.encode_form(Length), Ok(with_length.clone()));
        assert_eq!(read.encode(), Ok(with_type.clone()));

        // Each form refuses the other's frames.
        let refused = EthernetFrame::decode_form(Length, &with_type);
        assert_eq!(refused, Err(Refused(61)));
        let refused = EthernetFrame::decode(&with_length);
        assert_eq!(refused, Err(InvalidFrame(22)));
        let refused = validate_ethernet_frame(&with_length);
        assert_eq!(refused, Err(InvalidFrame(22)));
    }
}

#[test]
fn zeros_of_the_payload_are_no_padding() {
    for size in [1, 2, 42, 43, 44, 1497] {
        let frame = EthernetFrame::new(DEST, SRC, vec![0; size]);
        let octets = frame.encode_form(Length).unwrap();
        let read = EthernetFrame::decode_form(Length, &octets).unwrap();
        assert_eq!(read.payload, vec![0; size]);
    }
}

#[test]
fn encode_form_refuses_1515_octets() {
    for form in FORMS {
        let refused = EthernetFrame::new(DEST, SRC, vec![0x41; 1498]).encode_form(form);
        assert_eq!(refused, Err(InvalidFrame(24)));
    }
}

#[test]
fn encode_into_form_leaves_the_rest() {
    for (form, two) in [(EtherType, [0x82, 0xDC]), (Length, [0x00, 0x05])] {
        let mut out = [0xA5; 64];
        let count = encode_into_form(form, &DEST, &SRC, &[0x41, 0x42], &mut out);
        assert_eq!(count, Ok(60));
        assert_eq!(out[..12].to_vec(), octets(FRONT)[..12]);
        assert_eq!(out[12..14], two);
        assert_eq!(out[14..19], [0x82, 0x82, 0x03, 0x41, 0x42]);
        assert_eq!(out[19..60], [0; 41]);
        assert_eq!(out[60..], [0xA5; 4]);
    }
}

#[test]
fn encode_into_form_refusals() {
    for form in FORMS {
        for (refusal, payload, room) in [
            (InvalidFrame(24), 1498, 2000),
            // Both questions fail: the first is answered.
            (InvalidFrame(24), 1498, 0),
            (Refused(25), 0, 59),
            (Refused(25), 44, 60),
            (Refused(25), 1497, 1513),
        ] {
            let mut out = vec![0xA5; room];
            let count = encode_into_form(form, &DEST, &SRC, &vec![0x41; payload], &mut out);
            assert_eq!(count, Err(refusal));
            assert_eq!(out, vec![0xA5; room]);
        }
    }
}
