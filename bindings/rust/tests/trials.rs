//! Document 01's trials, (a) to (k).

mod common;

use common::{octets, RULES};
use lefkanu::datalink::bip::{npdu, BvlcFunction, BvlcHeader};
use lefkanu::datalink::mstp::{calculate_header_crc, encode_into, MstpFrame, MstpFrameType};
use lefkanu::datalink::validation::{
    detect_patterns, validate_bacnet_ip_frame, Pattern, SuspiciousReason,
};
use lefkanu::datalink::DataLinkError::InvalidFrame;
use lefkanu::util::crc16_mstp;
use lefkanu::CheckRule::{AnnexG, House};

const HEADER: [u8; 5] = [0x00, 0x10, 0x05, 0x00, 0x00];
const DATA: [u8; 3] = [0x01, 0x22, 0x30];

#[test]
fn a_header_check_annex_g() {
    assert_eq!(calculate_header_crc(AnnexG, &HEADER), 0x8C);
}

#[test]
fn b_header_check_house() {
    assert_eq!(calculate_header_crc(House, &HEADER), 0x9A);
}

#[test]
fn c_data_check_annex_g() {
    assert_eq!(crc16_mstp(AnnexG, &DATA).to_le_bytes(), [0x10, 0xBD]);
}

#[test]
fn d_data_check_house() {
    assert_eq!(crc16_mstp(House, &DATA).to_le_bytes(), [0xC7, 0x4B]);
}

#[test]
fn e_four_octets_41() {
    let text = Pattern::AsciiText {
        start: 0,
        length: 4,
    };
    assert_eq!(detect_patterns(&[0x41; 4]), Ok(vec![text]));
}

#[test]
fn f_five_octets_41() {
    let padding = Pattern::Padding {
        start: 1,
        length: 4,
        value: 0x41,
    };
    let text = Pattern::AsciiText {
        start: 0,
        length: 5,
    };
    assert_eq!(detect_patterns(&[0x41; 5]), Ok(vec![padding, text]));
}

#[test]
fn g_twelve_zeros() {
    let padding = Pattern::Padding {
        start: 1,
        length: 11,
        value: 0x00,
    };
    assert_eq!(detect_patterns(&[0; 12]), Ok(vec![padding]));
}

#[test]
fn h_eight_zeros_and_four_ff() {
    let padding = Pattern::Padding {
        start: 8,
        length: 4,
        value: 0xFF,
    };
    let zeros = Pattern::Suspicious {
        description: SuspiciousReason::AllZeros,
    };
    let frame = octets("00 00 00 00 00 00 00 00 FF FF FF FF");
    assert_eq!(detect_patterns(&frame), Ok(vec![padding, zeros]));
}

#[test]
fn i_function_0d() {
    let message = octets("81 0D 00 04");
    let result = validate_bacnet_ip_frame(&message);
    assert!(result.is_valid);
    assert_eq!((result.errors, result.warnings), (vec![], vec![]));
    assert_eq!(BvlcHeader::decode(&message), Err(InvalidFrame(13)));
}

#[test]
fn j_a_header_without_an_npdu() {
    let message = octets("81 0B 00 04");
    let header = BvlcHeader::new(BvlcFunction::OriginalBroadcastNpdu, 4);
    assert_eq!(BvlcHeader::decode(&message), Ok(header));
    assert_eq!(npdu(&message), Err(InvalidFrame(15)));
}

#[test]
fn k_501_and_502_data_octets() {
    let frame_type = MstpFrameType::BacnetDataExpectingReply;
    for rule in RULES {
        let mut out = [0xA5; 600];
        let written = encode_into(rule, frame_type, 16, 5, &[0x22; 501], &mut out);
        assert_eq!(written, Ok(511));
        let read = MstpFrame::decode(rule, &out[..511]).unwrap();
        assert_eq!(read.data, [0x22; 501]);
        let mut out = [0xA5; 600];
        let refused = encode_into(rule, frame_type, 16, 5, &[0x22; 502], &mut out);
        assert_eq!(refused, Err(InvalidFrame(7)));
        assert_eq!(out, [0xA5; 600]);
    }
}
