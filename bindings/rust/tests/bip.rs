//! BVLC messages.

mod common;

use common::octets;
use lefkanu::datalink::bip::{npdu, process_bvlc_message, BvlcFunction, BvlcHeader, BvlcMessage};
use lefkanu::datalink::DataLinkError::{InvalidFrame, Refused};

#[test]
fn functions() {
    for number in 0..=0xFF {
        let expected = if number <= 0x0C {
            Ok(number)
        } else {
            Err(InvalidFrame(13))
        };
        assert_eq!(BvlcFunction::try_from(number).map(|f| f as u8), expected);
    }
    assert_eq!(
        BvlcFunction::try_from(0x04),
        Ok(BvlcFunction::ForwardedNpdu)
    );
    assert_eq!(BvlcFunction::try_from(0x0C), Ok(BvlcFunction::SecureBvll));
}

#[test]
fn headers() {
    for number in 0..=0x0C {
        let function = BvlcFunction::try_from(number).unwrap();
        let header = BvlcHeader::new(function, 0xABCD);
        assert_eq!((header.bvlc_type, header.length), (0x81, 0xABCD));
        assert_eq!(header.encode(), [0x81, number, 0xAB, 0xCD]);
        assert_eq!(BvlcHeader::decode(&header.encode()), Ok(header));
    }
}

#[test]
fn header_decode_refusals() {
    for (refusal, message) in [
        (11, ""),
        (11, "81 0B 00"),
        (12, "82 0B 00 04"),
        (12, "00 0B 00 04"),
        (13, "81 0D 00 04"),
        (13, "81 FF 00 04"),
        (11, "82 0D"),
        (12, "82 0D 00 04"),
    ] {
        let refused = BvlcHeader::decode(&octets(message));
        assert_eq!(refused, Err(InvalidFrame(refusal)));
    }
}

#[test]
fn header_written_into_an_output() {
    let header = BvlcHeader::new(BvlcFunction::OriginalUnicastNpdu, 17);
    let mut out = [0xA5; 6];
    assert_eq!(header.encode_into(&mut out), Ok(4));
    assert_eq!(out, [0x81, 0x0A, 0x00, 0x11, 0xA5, 0xA5]);
    for room in 0..4 {
        let mut out = vec![0xA5; room];
        assert_eq!(header.encode_into(&mut out), Err(Refused(16)));
        assert_eq!(out, vec![0xA5; room]);
    }
}

#[test]
fn npdus() {
    for (message, place) in [
        ("81 0A 00 05 01", 4),
        ("81 0B 00 06 01 20", 4),
        ("81 04 00 0B C0 A8 01 0A BA C0 01", 10),
    ] {
        let message = octets(message);
        let expected = &message[place..];
        assert_eq!(
            process_bvlc_message(&message),
            Ok(BvlcMessage::Npdu(expected))
        );
        assert_eq!(npdu(&message), Ok(Some(expected)));
        assert_eq!(npdu(&message).unwrap().unwrap().as_ptr(), expected.as_ptr());
    }
}

#[test]
fn time_to_live() {
    for (message, seconds) in [("81 05 00 06 00 3C", 60), ("81 05 00 06 FF FE", 0xFFFE)] {
        let message = octets(message);
        let expected = BvlcMessage::TimeToLive(seconds);
        assert_eq!(process_bvlc_message(&message), Ok(expected));
        assert_eq!(npdu(&message), Ok(None));
    }
}

#[test]
fn no_npdu() {
    for function in [0x00, 0x01, 0x02, 0x03, 0x05, 0x06, 0x07, 0x08, 0x09, 0x0C] {
        for length in [4, 5, 7] {
            let mut message = vec![0x81, function, 0x00, length];
            message.resize(length.into(), 0x01);
            assert_eq!(process_bvlc_message(&message), Ok(BvlcMessage::NoNpdu));
            assert_eq!(npdu(&message), Ok(None));
        }
    }
}

#[test]
fn message_refusals() {
    for (refusal, message) in [
        (11, "81 0B 00"),
        (12, "82 0B 00 05 01"),
        (13, "81 0D 00 04"),
        (14, "81 0B 00 06 01"),
        (14, "81 0B 00 04 01"),
        (14, "81 00 00 00"),
        (15, "81 0A 00 04"),
        (15, "81 0B 00 04"),
        (15, "81 04 00 0A C0 A8 01 0A BA C0"),
        (15, "81 04 00 04"),
        // Both questions fail: the first is answered.
        (14, "81 0B 00 03"),
    ] {
        let message = octets(message);
        let refusal = InvalidFrame(refusal);
        assert_eq!(process_bvlc_message(&message), Err(refusal));
        assert_eq!(npdu(&message), Err(refusal));
    }
}
