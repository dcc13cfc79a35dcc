//! The repository's samples.

mod common;

use common::{file, octets, sample, text};
use lefkanu::datalink::bip::{process_bvlc_message, BvlcMessage};
use lefkanu::datalink::ethernet::{EthernetForm, EthernetFrame};
use lefkanu::datalink::mstp::MstpFrame;
use lefkanu::datalink::validation::{
    validate_bacnet_ip_frame, validate_ethernet_frame, validate_mstp_frame,
};
use lefkanu::datalink::DataLinkError::{self, CrcError, InvalidFrame, Refused};
use lefkanu::finder::count_frames;
use lefkanu::log::{RecordKind, Records};
use lefkanu::CheckRule::{self, AnnexG, House};

const WHO_IS: &str = "01 20 FF FF 00 FF 10 08";
const REQUEST: &str = "01 04 00 03 01 0C 0C 00 00 00 01 19 55";
const ANSWER: &str = "01 00 30 01 0C 0C 00 00 00 01 19 55 3E 44 41 66 66 66 3F";

/// Type, destination, source and data, or the refusal.
type Read = Result<(u8, u8, u8, Vec<u8>), DataLinkError>;

fn read(rule: CheckRule, frame: &[u8]) -> Read {
    let frame = MstpFrame::decode(rule, frame)?;
    let addresses = (frame.destination, frame.source);
    Ok((frame.frame_type as u8, addresses.0, addresses.1, frame.data))
}

fn is(frame_type: u8, destination: u8, source: u8, data: &str) -> Read {
    Ok((frame_type, destination, source, octets(data)))
}

#[test]
fn mstp_frames() {
    let crc = Err(CrcError(4));
    let size = Err(InvalidFrame(5));
    let expected: [(Read, Read); 13] = [
        (is(0, 16, 5, ""), crc.clone()),
        (crc.clone(), is(0, 16, 5, "")),
        (crc.clone(), is(0, 16, 174, "")),
        (is(1, 6, 5, ""), crc.clone()),
        (is(5, 16, 5, REQUEST), crc.clone()),
        (crc.clone(), is(5, 16, 5, REQUEST)),
        (is(7, 5, 16, ""), crc.clone()),
        (is(6, 5, 16, ANSWER), crc.clone()),
        (crc.clone(), is(6, 5, 16, ANSWER)),
        (crc.clone(), crc.clone()),
        (Err(CrcError(6)), crc.clone()),
        (size.clone(), crc.clone()),
        (size, crc),
    ];
    let frames = sample("samples/mstp-frames.txt");
    assert_eq!(frames.len(), expected.len());
    for (frame, (annex_g, house)) in frames.iter().zip(expected) {
        assert_eq!(read(AnnexG, frame), annex_g);
        assert_eq!(read(House, frame), house);
        // What is read is written the same.
        for rule in common::RULES {
            if let Ok(read) = MstpFrame::decode(rule, frame) {
                assert_eq!(read.encode(rule).as_ref(), Ok(frame));
            }
        }
    }
}

#[test]
fn bvlc_messages() {
    let (who_is, request, answer) = (octets(WHO_IS), octets(REQUEST), octets(ANSWER));
    let expected = [
        Ok(BvlcMessage::Npdu(&who_is)),
        Ok(BvlcMessage::Npdu(&request)),
        Ok(BvlcMessage::Npdu(&answer)),
        Ok(BvlcMessage::Npdu(&who_is)),
        Ok(BvlcMessage::TimeToLive(300)),
        Ok(BvlcMessage::NoNpdu),
        Ok(BvlcMessage::NoNpdu),
        Ok(BvlcMessage::NoNpdu),
        Ok(BvlcMessage::NoNpdu),
        Err(InvalidFrame(14)),
        Err(InvalidFrame(14)),
        Err(InvalidFrame(15)),
        Err(InvalidFrame(15)),
        Err(InvalidFrame(13)),
        Err(InvalidFrame(12)),
        Err(InvalidFrame(11)),
    ];
    let messages = sample("samples/bvlc-messages.txt");
    let carried: Vec<_> = messages
        .iter()
        .map(|message| process_bvlc_message(message))
        .collect();
    assert_eq!(carried, expected);
}

#[test]
fn ethernet_frames() {
    let padded = |npdu: &str| {
        let mut payload = octets(npdu);
        payload.resize(43, 0);
        Ok(payload)
    };
    let expected = [
        padded(WHO_IS),
        padded(REQUEST),
        padded(ANSWER),
        Ok(octets(ANSWER)),
        Ok(vec![]),
        Err(InvalidFrame(22)),
        Err(InvalidFrame(22)),
        Err(InvalidFrame(23)),
        Err(InvalidFrame(21)),
    ];
    let payloads: Vec<_> = sample("samples/ethernet-frames.txt")
        .iter()
        .map(|frame| EthernetFrame::decode(frame).map(|read| read.payload))
        .collect();
    assert_eq!(payloads, expected);
}

#[test]
fn ethernet_frames_with_a_length() {
    let frames = sample("samples/ethernet-length-frames.txt");
    // What is counted, or the refusal.
    let expected = [
        Ok(8),
        Ok(20),
        Ok(13),
        Ok(19),
        Ok(19),
        Ok(19),
        Ok(36),
        Ok(1497),
        Ok(0),
        Ok(0),
        Err(Refused(61)),
        Err(Refused(61)),
        Err(Refused(62)),
        Err(Refused(62)),
        Err(InvalidFrame(23)),
        Err(InvalidFrame(23)),
        Err(Refused(61)),
        Err(InvalidFrame(21)),
        Err(InvalidFrame(24)),
    ];
    assert_eq!(frames.len(), expected.len());
    let read = |frame: &[u8]| EthernetFrame::decode_form(EthernetForm::Length, frame);
    for (frame, expected) in frames.iter().zip(expected) {
        let payload = read(frame).map(|read| read.payload);
        assert_eq!(
            payload,
            expected.map(|count| frame[17..17 + count].to_vec())
        );
    }
    for (place, npdu) in [
        (0, WHO_IS),
        (2, REQUEST),
        (3, ANSWER),
        (4, ANSWER),
        (5, ANSWER),
    ] {
        assert_eq!(read(&frames[place]).unwrap().payload, octets(npdu));
    }
    // What is padded to 60 octets with zeros, or has more, is written the same.
    for place in [0, 1, 2, 3, 6, 7, 9] {
        let written = read(&frames[place])
            .unwrap()
            .encode_form(EthernetForm::Length);
        assert_eq!(written.as_ref(), Ok(&frames[place]));
    }
}

/// What `buslog` prints for a log.
fn listing(log: &[u8]) -> String {
    let mut lines = String::new();
    for record in Records::new(log) {
        let record = match record {
            Ok(record) => record,
            Err(error) => return lines + &format!("stopped {}\n", error.question()),
        };
        let (result, frames) = match record.kind {
            RecordKind::Bus => (
                validate_mstp_frame(AnnexG, record.payload),
                count_frames(AnnexG, record.payload).unwrap(),
            ),
            RecordKind::Ip => (validate_bacnet_ip_frame(record.payload), 0),
            RecordKind::Ethernet => (validate_ethernet_frame(record.payload), 0),
        };
        let (kind, length) = (record.kind as u8, record.payload.len());
        let valid = u8::from(result.is_valid);
        let second = record.time.map_or("-".into(), |second| second.to_string());
        lines += &format!("record {kind} {length} {valid} {frames} {second}\n");
    }
    lines + "end\n"
}

#[test]
fn dryer_log() {
    assert_eq!(
        listing(&file("samples/dryer.log")),
        text("samples/dryer.txt")
    );
}

#[test]
fn a_log_that_reaches_its_start() {
    let log = octets("55 FF 00 10 05 00 00 8C 01 00 08");
    assert_eq!(listing(&log), "record 1 8 1 1 -\nend\n");
}
