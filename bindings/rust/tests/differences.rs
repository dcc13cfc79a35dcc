//! The smallest inputs of docs/DIFFERENCES.md.

mod common;

use common::{octets, with_zeros, RULES};
use lefkanu::datalink::bip::{npdu, process_bvlc_message, BvlcFunction, BvlcHeader, BvlcMessage};
use lefkanu::datalink::ethernet::{self, EthernetForm, EthernetFrame};
use lefkanu::datalink::mstp::{
    self, calculate_header_crc, decode_header, MstpFrame, MstpFrameType,
};
use lefkanu::datalink::validation::{
    analyze_frame, calculate_frame_statistics, detect_patterns, validate_bacnet_ip_frame,
    validate_mstp_frame, ConfigurationReason, Pattern, ValidationError, ValidationWarning,
};
use lefkanu::datalink::DataLinkError::{CrcError, InvalidFrame, Refused};
use lefkanu::finder::{find_frame, read_frames, Report};
use lefkanu::CheckRule::{AnnexG, House};

#[test]
fn no_limit_of_501_in_reading() {
    for (rule, header, check) in [
        (AnnexG, "55 FF 00 00 00 01 F6 03", "FC 0A"),
        (House, "55 FF 00 00 00 01 F6 DF", "BC E5"),
    ] {
        let frame = with_zeros(header, 502, check);
        let (header, data) = decode_header(rule, &frame).unwrap();
        assert_eq!((header.data_length, data), (502, &[0; 502][..]));
    }
}

#[test]
fn source_255() {
    for (rule, frame) in [
        (AnnexG, "55 FF 00 00 FF 00 00 EB"),
        (House, "55 FF 00 00 FF 00 00 AD"),
    ] {
        let read = MstpFrame::decode(rule, &octets(frame)).unwrap();
        assert_eq!(read.source, 255);
        assert_eq!(read.encode(rule), Ok(octets(frame)));
    }
}

#[test]
fn the_pad_octet() {
    let padded = octets("55 FF 00 10 05 00 00 8C FF");
    assert_eq!(MstpFrame::decode(AnnexG, &padded), Err(InvalidFrame(5)));
}

#[test]
fn function_09_yields_no_npdu() {
    let message = octets("81 09 00 05 01");
    assert_eq!(process_bvlc_message(&message), Ok(BvlcMessage::NoNpdu));
}

#[test]
fn the_length_of_a_bvlc_header() {
    let header = BvlcHeader::new(BvlcFunction::OriginalUnicastNpdu, 0);
    assert_eq!(BvlcHeader::decode(&octets("81 0A 00 00")), Ok(header));
    assert_eq!(npdu(&octets("81 0A 00 00")), Err(InvalidFrame(14)));
}

#[test]
fn the_address_in_function_04() {
    let message = octets("81 04 00 0B 11 22 33 44 55 66 01");
    assert_eq!(npdu(&message), Ok(Some(&[0x01][..])));
}

#[test]
fn ethernet_type_where_clause_7_has_a_length() {
    let addresses = [0x11; 12];
    let frame = [&addresses[..], &octets("82 DC 82 82 03")].concat();
    assert_eq!(EthernetFrame::decode(&frame).unwrap().payload, []);
    let clause_7 = [&addresses[..], &octets("00 03 82 82 03")].concat();
    assert_eq!(EthernetFrame::decode(&clause_7), Err(InvalidFrame(22)));
    // Only where the caller names the form.
    let read = EthernetFrame::decode_form(EthernetForm::Length, &clause_7).unwrap();
    assert_eq!((read.ether_type, read.payload), (3, vec![]));
    let refused = EthernetFrame::decode_form(EthernetForm::Length, &frame);
    assert_eq!(refused, Err(Refused(61)));
}

#[test]
fn the_length_of_an_ethernet_frame() {
    for (five, refusal) in [
        ("00 02 82 82 03", Refused(61)),
        ("05 DD 82 82 03", Refused(61)),
        ("00 04 82 82 03", Refused(62)),
    ] {
        let frame = [&[0x11; 12][..], &octets(five)].concat();
        let refused = EthernetFrame::decode_form(EthernetForm::Length, &frame);
        assert_eq!(refused, Err(refusal));
    }
    // What is behind the counted octets is ignored.
    let frame = [&[0x11; 12][..], &octets("00 03 82 82 03 FF")].concat();
    let read = EthernetFrame::decode_form(EthernetForm::Length, &frame).unwrap();
    assert_eq!(read.payload, []);
    // In this form reading asks for the largest size.
    let mut frame = [&[0x11; 12][..], &octets("00 03 82 82 03")].concat();
    frame.resize(1515, 0);
    let refused = EthernetFrame::decode_form(EthernetForm::Length, &frame);
    assert_eq!(refused, Err(InvalidFrame(24)));
}

#[test]
fn padding_stays_in_the_payload() {
    let octets = EthernetFrame::new([1; 6], [2; 6], vec![]).encode().unwrap();
    assert_eq!(EthernetFrame::decode(&octets).unwrap().payload, [0; 43]);
    let frame = EthernetFrame::new([1; 6], [2; 6], vec![]);
    let octets = frame.encode_form(EthernetForm::Length).unwrap();
    let read = EthernetFrame::decode_form(EthernetForm::Length, &octets).unwrap();
    assert_eq!((octets.len(), read.payload), (60, vec![]));
}

#[test]
fn no_largest_size_in_ethernet_reading() {
    let mut frame = [&[0x11; 12][..], &octets("82 DC 82 82 03")].concat();
    frame.resize(1515, 0);
    assert_eq!(EthernetFrame::decode(&frame).unwrap().payload.len(), 1498);
    assert_eq!(
        ethernet::validate_ethernet_frame(&frame),
        Err(InvalidFrame(24))
    );
}

#[test]
fn function_0d() {
    let message = octets("81 0D 00 04");
    let result = validate_bacnet_ip_frame(&message);
    assert_eq!((result.is_valid, result.warnings), (true, vec![]));
    assert_eq!(BvlcHeader::decode(&message), Err(InvalidFrame(13)));
}

#[test]
fn types_of_128_or_more() {
    let proprietary = ValidationWarning::NonStandardConfiguration {
        reason: ConfigurationReason::ProprietaryType(128),
    };
    for (rule, frame) in [
        (AnnexG, "55 FF 80 00 00 00 00 3F"),
        (House, "55 FF 80 00 00 00 00 DD"),
    ] {
        let frame = octets(frame);
        let result = validate_mstp_frame(rule, &frame);
        assert!(result.is_valid);
        assert_eq!(result.warnings, std::slice::from_ref(&proprietary));
        assert_eq!(MstpFrame::decode(rule, &frame), Err(InvalidFrame(3)));
        assert_eq!(find_frame(rule, &frame, 0), Ok(None));
    }
}

#[test]
fn extended_frames() {
    let invalid_type = |value| ValidationError::InvalidFrameType { value };
    for (rule, frame) in [
        (AnnexG, "55 FF 20 00 00 00 00 0A"),
        (House, "55 FF 20 00 00 00 00 F6"),
    ] {
        let frame = octets(frame);
        assert_eq!(MstpFrame::decode(rule, &frame), Err(InvalidFrame(3)));
        let result = validate_mstp_frame(rule, &frame);
        assert_eq!(result.errors, [invalid_type(32)]);
        assert_eq!(result.warnings, []);
        assert_eq!(find_frame(rule, &frame, 0), Ok(None));
    }
    // Data 01 22 30 and their CRC-32K, both encoded. The validator takes the last two octets for a data check.
    for (rule, frame, calculated) in [
        (
            AnnexG,
            "55 FF 21 05 10 00 07 40 51 54 77 65 50 03 2D 03 88",
            0xB057,
        ),
        (
            House,
            "55 FF 21 05 10 00 07 BE 51 54 77 65 50 03 2D 03 88",
            0xD583,
        ),
    ] {
        let frame = octets(frame);
        assert_eq!(MstpFrame::decode(rule, &frame), Err(InvalidFrame(3)));
        let crc_mismatch = ValidationError::CrcMismatch {
            expected: 0x8803,
            calculated,
        };
        let result = validate_mstp_frame(rule, &frame);
        assert_eq!(result.errors, [invalid_type(33), crc_mismatch]);
        assert_eq!(find_frame(rule, &frame, 0), Ok(None));
        // Frames before and after it are found.
        let token = MstpFrame::token(rule, 16, 5).unwrap().encode(rule).unwrap();
        let run = [&token[..], &frame, &token].concat();
        let reports = [0, 25].map(|place| Report { place, count: 8 });
        assert_eq!(read_frames(rule, &run), Ok(reports.to_vec()));
    }
}

#[test]
fn types_8_to_127() {
    for rule in RULES {
        for value in 8..=127 {
            let header = [value, 0, 0, 0, 0];
            let check = calculate_header_crc(rule, &header);
            let frame = [&[0x55, 0xFF], &header[..], &[check]].concat();
            assert_eq!(MstpFrame::decode(rule, &frame), Err(InvalidFrame(3)));
            let errors = validate_mstp_frame(rule, &frame).errors;
            assert_eq!(errors, [ValidationError::InvalidFrameType { value }]);
            assert_eq!(find_frame(rule, &frame, 0), Ok(None));
        }
    }
}

#[test]
fn a_master_that_sends_to_a_slave() {
    let warning = ValidationWarning::NonStandardConfiguration {
        reason: ConfigurationReason::MasterToSlave,
    };
    for (rule, frame, warnings) in [
        (House, "55 FF 00 80 00 00 00 8B", vec![warning.clone()]),
        (House, "55 FF 05 80 00 00 00 8F", vec![warning.clone()]),
        (AnnexG, "55 FF 05 80 00 00 00 2E", vec![]),
        (AnnexG, "55 FF 06 80 00 00 00 A7", vec![]),
        (AnnexG, "55 FF 00 80 00 00 00 B6", vec![warning]),
    ] {
        let result = validate_mstp_frame(rule, &octets(frame));
        assert_eq!((result.is_valid, result.warnings), (true, warnings));
    }
}

#[test]
fn a_changed_station_address_passes_the_house_rule() {
    for (frame, destination, source) in [
        ("55 FF 00 10 05 00 00 9A", 16, 5),
        ("55 FF 00 10 AE 00 00 9A", 16, 174),
        ("55 FF 00 BB 05 00 00 9A", 187, 5),
    ] {
        let frame = octets(frame);
        let read = MstpFrame::decode(House, &frame).unwrap();
        assert_eq!((read.destination, read.source), (destination, source));
        assert_eq!(MstpFrame::decode(AnnexG, &frame), Err(CrcError(4)));
    }
    let other_type = octets("55 FF AB 10 05 00 00 9A");
    assert_eq!(MstpFrame::decode(House, &other_type), Err(InvalidFrame(3)));
    let result = validate_mstp_frame(House, &other_type);
    let proprietary = ValidationWarning::NonStandardConfiguration {
        reason: ConfigurationReason::ProprietaryType(0xAB),
    };
    assert_eq!(
        (result.is_valid, result.warnings),
        (true, vec![proprietary])
    );
    let other_length = octets("55 FF 00 10 05 00 AB 9A");
    assert_eq!(
        MstpFrame::decode(House, &other_length),
        Err(InvalidFrame(5))
    );
}

#[test]
fn single_changed_octets_of_a_token() {
    for (rule, token, passing) in [
        (AnnexG, "55 FF 00 10 05 00 00 8C", vec![]),
        (House, "55 FF 00 10 05 00 00 9A", vec![(3, 0xBB), (4, 0xAE)]),
    ] {
        let token = octets(token);
        let mut passed = vec![];
        for place in 0..token.len() {
            for octet in 0..=0xFF {
                let mut changed = token.clone();
                changed[place] = octet;
                if changed != token && MstpFrame::decode(rule, &changed).is_ok() {
                    passed.push((place, octet));
                }
            }
        }
        assert_eq!(passed, passing);
    }
}

#[test]
fn want_of_room() {
    let token = MstpFrameType::Token;
    assert_eq!(
        mstp::encode_into(AnnexG, token, 16, 5, &[], &mut [0; 7]),
        Err(Refused(8))
    );
    let header = BvlcHeader::new(BvlcFunction::Result, 4);
    assert_eq!(header.encode_into(&mut [0; 3]), Err(Refused(16)));
    assert_eq!(
        ethernet::encode_into(&[1; 6], &[2; 6], &[], &mut [0; 59]),
        Err(Refused(25))
    );
}

/// A frame with data 01 22 30, as it was made and with one change.
fn changed(change: impl Fn(&mut MstpFrame)) -> MstpFrame {
    let answer = MstpFrameType::BacnetDataNotExpectingReply;
    let mut frame = MstpFrame::new(House, answer, 5, 16, vec![0x01, 0x22, 0x30]).unwrap();
    change(&mut frame);
    frame
}

// Beside each change: what bacnet-rs writes, and why that is refused.
#[test]
fn fields_that_encode_ignores() {
    for (frame, damaged, refusal) in [
        (
            changed(|frame| frame.header_crc = 0x00),
            "55 FF 06 05 10 00 03 00 01 22 30 C7 4B",
            CrcError(4),
        ),
        (
            changed(|frame| frame.data_length = 2),
            "55 FF 06 05 10 00 02 E0 01 22 30 C7 4B",
            CrcError(4),
        ),
        (
            changed(|frame| frame.data_crc = Some(0x0000)),
            "55 FF 06 05 10 00 03 E0 01 22 30 00 00",
            CrcError(6),
        ),
        (
            changed(|frame| frame.data_crc = None),
            "55 FF 06 05 10 00 03 E0 01 22 30",
            InvalidFrame(5),
        ),
    ] {
        let good = changed(|_| ());
        assert_ne!(frame, good);
        for rule in RULES {
            assert_eq!(frame.encode(rule), good.encode(rule));
        }
        assert_eq!(MstpFrame::decode(House, &octets(damaged)), Err(refusal));
    }

    let mut header = BvlcHeader::new(BvlcFunction::OriginalUnicastNpdu, 4);
    header.bvlc_type = 0x82;
    assert_eq!(header.encode(), octets("81 0A 00 04"));
    let mut out = [0; 4];
    assert_eq!(header.encode_into(&mut out), Ok(4));
    assert_eq!(out.to_vec(), octets("81 0A 00 04"));
    let damaged = octets("82 0A 00 04");
    assert_eq!(BvlcHeader::decode(&damaged), Err(InvalidFrame(12)));

    let good = EthernetFrame::new([1; 6], [2; 6], vec![3]);
    let mut other_type = good.clone();
    other_type.ether_type = 0x0800;
    let mut other_llc = good.clone();
    other_llc.llc_header = [0xAA, 0xAA, 0x03];
    for (frame, damaged, refusal) in [
        (other_type, "08 00 82 82 03", InvalidFrame(22)),
        (other_llc, "82 DC AA AA 03", InvalidFrame(23)),
    ] {
        assert_eq!(frame.encode(), good.encode());
        for form in [EthernetForm::EtherType, EthernetForm::Length] {
            assert_eq!(frame.encode_form(form), good.encode_form(form));
        }
        let mut octets_written = good.encode().unwrap();
        octets_written[12..17].copy_from_slice(&octets(damaged));
        assert_eq!(EthernetFrame::decode(&octets_written), Err(refusal));
    }
}

// Beside each change: what bacnet-rs writes, with the old length and checks, and why that is refused.
#[test]
fn fields_that_encode_calculates_from() {
    for (frame, written, damaged, refusal) in [
        (
            changed(|frame| frame.frame_type = MstpFrameType::TestRequest),
            "55 FF 03 05 10 00 03 E4 01 22 30 C7 4B",
            "55 FF 03 05 10 00 03 E0 01 22 30 C7 4B",
            CrcError(4),
        ),
        (
            changed(|frame| frame.destination = 6),
            "55 FF 06 06 10 00 03 83 01 22 30 C7 4B",
            "55 FF 06 06 10 00 03 E0 01 22 30 C7 4B",
            CrcError(4),
        ),
        (
            changed(|frame| frame.source = 17),
            "55 FF 06 05 11 00 03 C6 01 22 30 C7 4B",
            "55 FF 06 05 11 00 03 E0 01 22 30 C7 4B",
            CrcError(4),
        ),
        (
            changed(|frame| frame.data = vec![0x01, 0x22, 0x31]),
            "55 FF 06 05 10 00 03 E0 01 22 31 06 8B",
            "55 FF 06 05 10 00 03 E0 01 22 31 C7 4B",
            CrcError(6),
        ),
        (
            changed(|frame| frame.data = vec![]),
            "55 FF 06 05 10 00 00 90",
            "55 FF 06 05 10 00 03 E0",
            InvalidFrame(5),
        ),
    ] {
        assert_eq!(frame.encode(House), Ok(octets(written)));
        assert!(MstpFrame::decode(House, &octets(written)).is_ok());
        assert_eq!(MstpFrame::decode(House, &octets(damaged)), Err(refusal));
    }
}

#[test]
fn the_time_to_live_is_answered() {
    let message = octets("81 05 00 06 00 3C");
    assert_eq!(
        process_bvlc_message(&message),
        Ok(BvlcMessage::TimeToLive(60))
    );
}

#[test]
fn no_npdu_is_an_answer() {
    let message = octets("81 00 00 04");
    assert_eq!(process_bvlc_message(&message), Ok(BvlcMessage::NoNpdu));
}

#[test]
fn messages_longer_than_1500_octets() {
    let mut message = octets("81 0B 05 DD");
    message.resize(1501, 0x01);
    assert_eq!(npdu(&message), Ok(Some(&[0x01; 1497][..])));
}

#[test]
fn at_most_65_535_octets() {
    let long = [0; 65_536];
    assert_eq!(calculate_frame_statistics(&long), Err(Refused(31)));
    assert_eq!(detect_patterns(&long), Err(Refused(31)));
    assert_eq!(analyze_frame(AnnexG, &long), Err(Refused(31)));
}

#[test]
fn the_longest_run_has_its_start() {
    let statistics = calculate_frame_statistics(&octets("00 41 41")).unwrap();
    assert_eq!(statistics.longest_run, (0x41, 2));
    assert_eq!(statistics.longest_run_start, 1);
}

#[test]
fn texts_without_their_octets() {
    let text = Pattern::AsciiText {
        start: 0,
        length: 4,
    };
    assert_eq!(text.text(&[0x41; 4]), Some("AAAA"));
    assert_eq!(detect_patterns(&[0x41; 4]), Ok(vec![text]));
}

#[test]
fn the_finder() {
    let token = octets("55 FF 00 10 05 00 00 8C");
    let report = Report { place: 0, count: 8 };
    assert_eq!(find_frame(AnnexG, &token, 0), Ok(Some(report)));
}
