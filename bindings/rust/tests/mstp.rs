//! MS/TP frames.

mod common;

use common::{octets, with_zeros};
use lefkanu::datalink::mstp::{
    decode_header, encode_into, MstpFrame, MstpFrameType, MstpHeader, MSTP_HEADER_SIZE,
    MSTP_MAX_DATA_LENGTH, MSTP_MAX_FRAME_SIZE, MSTP_PREAMBLE_55, MSTP_PREAMBLE_FF,
};
use lefkanu::datalink::DataLinkError::{CrcError, InvalidFrame, Refused};
use lefkanu::CheckRule::{AnnexG, House};

const ANSWER: MstpFrameType = MstpFrameType::BacnetDataNotExpectingReply;

#[test]
fn constants() {
    assert_eq!((MSTP_PREAMBLE_55, MSTP_PREAMBLE_FF), (0x55, 0xFF));
    assert_eq!((MSTP_HEADER_SIZE, MSTP_MAX_DATA_LENGTH), (8, 501));
    assert_eq!(MSTP_MAX_FRAME_SIZE, 511);
}

#[test]
fn types() {
    for number in 0..=0xFF {
        let of_number = MstpFrameType::from_u8(number);
        assert_eq!(of_number.map(|t| t as u8), (number <= 7).then_some(number));
    }
    assert_eq!(MstpFrameType::from_u8(0), Some(MstpFrameType::Token));
    assert_eq!(MstpFrameType::from_u8(6), Some(ANSWER));
}

#[test]
fn new_calculates_the_checks() {
    for (rule, header_crc, data_crc) in [(AnnexG, 0xDA, 0xBD10), (House, 0xE0, 0x4BC7)] {
        let frame = MstpFrame::new(rule, ANSWER, 5, 16, vec![0x01, 0x22, 0x30]);
        let expected = MstpFrame {
            frame_type: ANSWER,
            destination: 5,
            source: 16,
            data_length: 3,
            header_crc,
            data: vec![0x01, 0x22, 0x30],
            data_crc: Some(data_crc),
        };
        assert_eq!(frame, Ok(expected));
    }
}

#[test]
fn new_without_data() {
    let token = MstpFrame::token(AnnexG, 16, 5).unwrap();
    assert_eq!((token.destination, token.source), (16, 5));
    assert_eq!((token.data_length, token.header_crc), (0, 0x8C));
    assert_eq!((token.data.len(), token.data_crc), (0, None));
    assert!(token.is_token() && !token.is_data());
}

#[test]
fn data_frames() {
    let asking = MstpFrame::bacnet_data(House, 5, 16, vec![1], true).unwrap();
    assert_eq!(asking.frame_type, MstpFrameType::BacnetDataExpectingReply);
    let telling = MstpFrame::bacnet_data(House, 5, 16, vec![1], false).unwrap();
    assert_eq!(telling.frame_type, ANSWER);
    assert!(asking.is_data() && telling.is_data() && !telling.is_token());
}

#[test]
fn new_refuses_502_data_octets() {
    for rule in common::RULES {
        let longest = MstpFrame::new(rule, ANSWER, 5, 16, vec![0x41; 501]).unwrap();
        assert_eq!(longest.data_length, 501);
        let refused = MstpFrame::new(rule, ANSWER, 5, 16, vec![0x41; 502]);
        assert_eq!(refused, Err(InvalidFrame(7)));
    }
}

#[test]
fn encode() {
    for (rule, expected) in [
        (AnnexG, "55 FF 06 05 10 00 03 DA 01 22 30 10 BD"),
        (House, "55 FF 06 05 10 00 03 E0 01 22 30 C7 4B"),
    ] {
        let frame = MstpFrame::new(rule, ANSWER, 5, 16, vec![0x01, 0x22, 0x30]).unwrap();
        assert_eq!(frame.encode(rule), Ok(octets(expected)));
        assert_eq!(MstpFrame::decode(rule, &octets(expected)), Ok(frame));
    }
}

#[test]
fn encode_calculates_anew() {
    let mut frame = MstpFrame::new(AnnexG, ANSWER, 5, 16, vec![0x41]).unwrap();
    frame.data = vec![0x01, 0x22, 0x30];
    assert_eq!(
        frame.encode(AnnexG),
        Ok(octets("55 FF 06 05 10 00 03 DA 01 22 30 10 BD"))
    );
}

#[test]
fn encode_refuses_502_data_octets() {
    let read =
        MstpFrame::decode(AnnexG, &with_zeros("55 FF 00 00 00 01 F6 03", 502, "FC 0A")).unwrap();
    assert_eq!(read.data_length, 502);
    assert_eq!(read.encode(AnnexG), Err(InvalidFrame(7)));
}

#[test]
fn decode_all_types() {
    for number in 0..=7 {
        let frame_type = MstpFrameType::from_u8(number).unwrap();
        for rule in common::RULES {
            let written = MstpFrame::new(rule, frame_type, 0xFF, 0x7F, vec![number; 9]).unwrap();
            let read = MstpFrame::decode(rule, &written.encode(rule).unwrap());
            assert_eq!(read, Ok(written));
        }
    }
}

#[test]
fn decode_refusals() {
    for (refusal, frame) in [
        (InvalidFrame(1), ""),
        (InvalidFrame(1), "55 FF 00 10 05 00 00"),
        (InvalidFrame(2), "54 FF 00 10 05 00 00 8C"),
        (InvalidFrame(2), "55 FE 00 10 05 00 00 8C"),
        (InvalidFrame(3), "55 FF 08 00 00 00 00 C6"),
        (InvalidFrame(3), "55 FF 80 00 00 00 00 3F"),
        (CrcError(4), "55 FF 00 11 05 00 00 8C"),
        (CrcError(4), "55 FF 00 10 05 00 00 9A"),
        (InvalidFrame(5), "55 FF 00 10 05 00 00 8C FF"),
        (InvalidFrame(5), "55 FF 06 05 10 00 03 DA 01 22 30 10"),
        (InvalidFrame(5), "55 FF 06 05 10 00 03 DA"),
        (CrcError(6), "55 FF 06 05 10 00 03 DA 01 22 31 10 BD"),
        (CrcError(6), "55 FF 06 05 10 00 03 DA 01 22 30 BD 10"),
        // Where several questions fail the first is answered.
        (InvalidFrame(1), "54 FE 08"),
        (InvalidFrame(2), "54 FF 08 10 05 00 00 00 00"),
        (InvalidFrame(3), "55 FF 08 10 05 00 00 00 00"),
        (CrcError(4), "55 FF 00 10 05 00 00 00 00"),
    ] {
        let frame = octets(frame);
        assert_eq!(MstpFrame::decode(AnnexG, &frame), Err(refusal));
        assert_eq!(decode_header(AnnexG, &frame), Err(refusal));
    }
    let annex_g = octets("55 FF 00 10 05 00 00 8C");
    assert_eq!(MstpFrame::decode(House, &annex_g), Err(CrcError(4)));
}

#[test]
fn decode_header_lends_the_data() {
    let frame = octets("55 FF 06 05 10 00 03 E0 01 22 30 C7 4B");
    let (header, data) = decode_header(House, &frame).unwrap();
    let expected = MstpHeader {
        frame_type: ANSWER,
        destination: 5,
        source: 16,
        data_length: 3,
        header_crc: 0xE0,
        data_crc: Some(0x4BC7),
    };
    assert_eq!(header, expected);
    assert_eq!(data, [0x01, 0x22, 0x30]);
    assert_eq!(data.as_ptr(), frame[8..].as_ptr());
}

#[test]
fn decode_header_without_data() {
    let token = octets("55 FF 00 10 05 00 00 8C");
    let (header, data) = decode_header(AnnexG, &token).unwrap();
    assert_eq!((header.data_length, header.data_crc), (0, None));
    assert_eq!(data, []);
}

#[test]
fn decode_the_longest() {
    let frame = with_zeros("55 FF 06 05 10 FF FF BD", 65_535, "78 F0");
    let (header, data) = decode_header(AnnexG, &frame).unwrap();
    assert_eq!(
        (header.data_length, header.data_crc),
        (65_535, Some(0xF078))
    );
    assert_eq!(data, vec![0; 65_535]);
}

#[test]
fn encode_into_leaves_the_rest() {
    let mut out = [0xA5; 12];
    assert_eq!(
        encode_into(AnnexG, MstpFrameType::Token, 16, 5, &[], &mut out),
        Ok(8)
    );
    assert_eq!(out.to_vec(), octets("55 FF 00 10 05 00 00 8C A5 A5 A5 A5"));
}

#[test]
fn encode_into_the_longest() {
    let mut out = [0; MSTP_MAX_FRAME_SIZE];
    let count = encode_into(AnnexG, ANSWER, 5, 16, &[0x41; 501], &mut out);
    assert_eq!(count, Ok(511));
    assert_eq!(out[..8].to_vec(), octets("55 FF 06 05 10 01 F5 23"));
    assert_eq!(out[8..509], [0x41; 501]);
    assert_eq!(out[509..], [0x1D, 0x0F]);
}

#[test]
fn encode_into_refusals() {
    for (refusal, data, room) in [
        (InvalidFrame(7), 502, 600),
        // Both questions fail: the first is answered.
        (InvalidFrame(7), 502, 0),
        (Refused(8), 0, 7),
        (Refused(8), 0, 0),
        (Refused(8), 3, 12),
        (Refused(8), 501, 510),
    ] {
        let mut out = vec![0xA5; room];
        let count = encode_into(AnnexG, ANSWER, 5, 16, &vec![0x41; data], &mut out);
        assert_eq!(count, Err(refusal));
        assert_eq!(out, vec![0xA5; room]);
    }
}
