//! The validators.

mod common;

use common::{octets, RULES};
use lefkanu::datalink::mstp::calculate_header_crc;
use lefkanu::datalink::validation::{
    analyze_frame, validate_bacnet_ip_frame, validate_ethernet_frame, validate_frame,
    validate_mstp_frame, AddressReason, ConfigurationReason, HeaderReason, SecurityReason,
    SuspiciousReason, ValidationError, ValidationResult, ValidationWarning,
};
use lefkanu::datalink::DataLinkType;
use lefkanu::CheckRule::{AnnexG, House};

fn result(
    link_type: Option<DataLinkType>,
    frame_size: usize,
    errors: &[ValidationError],
    warnings: &[ValidationWarning],
) -> ValidationResult {
    ValidationResult {
        is_valid: errors.is_empty(),
        link_type,
        frame_size,
        errors: errors.to_vec(),
        warnings: warnings.to_vec(),
    }
}

fn mstp(
    frame_size: usize,
    errors: &[ValidationError],
    warnings: &[ValidationWarning],
) -> ValidationResult {
    result(Some(DataLinkType::MsTP), frame_size, errors, warnings)
}

fn ip(
    frame_size: usize,
    errors: &[ValidationError],
    warnings: &[ValidationWarning],
) -> ValidationResult {
    result(Some(DataLinkType::BacnetIp), frame_size, errors, warnings)
}

fn ethernet(
    frame_size: usize,
    errors: &[ValidationError],
    warnings: &[ValidationWarning],
) -> ValidationResult {
    result(Some(DataLinkType::Ethernet), frame_size, errors, warnings)
}

fn crc_mismatch(expected: u32, calculated: u32) -> ValidationError {
    ValidationError::CrcMismatch {
        expected,
        calculated,
    }
}

fn configuration(reason: ConfigurationReason) -> ValidationWarning {
    ValidationWarning::NonStandardConfiguration { reason }
}

/// An Ethernet frame of so many octets to one station.
fn ethernet_frame(size: usize) -> Vec<u8> {
    let mut frame = octets("66 77 88 99 AA BB 00 11 22 33 44 55 82 DC 82 82 03");
    frame.resize(size, 0x41);
    frame
}

#[test]
fn mstp_valid() {
    for (rule, frame) in [
        (AnnexG, "55 FF 00 10 05 00 00 8C"),
        (House, "55 FF 00 10 05 00 00 9A"),
        (AnnexG, "55 FF 06 05 10 00 03 DA 01 22 30 10 BD"),
        (House, "55 FF 06 05 10 00 03 E0 01 22 30 C7 4B"),
        // No warning: a test request to a slave, data to a slave, a master to all, a slave to a slave.
        (AnnexG, "55 FF 03 80 00 00 00 3F"),
        (AnnexG, "55 FF 05 80 00 00 00 2E"),
        (AnnexG, "55 FF 06 FE 7F 00 00 A8"),
        (AnnexG, "55 FF 05 80 05 00 03 D1 01 22 30 10 BD"),
        (AnnexG, "55 FF 00 FF 7F 00 00 30"),
        (AnnexG, "55 FF 00 FE 80 00 00 A8"),
    ] {
        let frame = octets(frame);
        let expected = mstp(frame.len(), &[], &[]);
        assert_eq!(validate_mstp_frame(rule, &frame), expected);
        assert_eq!(validate_frame(rule, &frame), expected);
    }
}

#[test]
fn mstp_too_short() {
    for size in 0..8 {
        let too_short = ValidationError::FrameTooShort { size, minimum: 8 };
        let frame = &octets("54 FF 08 10 FF 00 00")[..size];
        for rule in RULES {
            let expected = mstp(size, std::slice::from_ref(&too_short), &[]);
            assert_eq!(validate_mstp_frame(rule, frame), expected);
        }
    }
}

#[test]
fn mstp_errors() {
    for (frame, error) in [
        (
            "00 05 00 10 05 00 00 8C",
            ValidationError::InvalidPreamble {
                expected: vec![0x55, 0xFF],
                found: vec![0x00, 0x05],
            },
        ),
        (
            "55 FF 08 00 00 00 00 C6",
            ValidationError::InvalidFrameType { value: 8 },
        ),
        (
            "55 FF 7F 00 00 00 00 3A",
            ValidationError::InvalidFrameType { value: 127 },
        ),
        (
            "55 FF 00 00 FF 00 00 EB",
            ValidationError::InvalidAddress {
                address: 255,
                reason: AddressReason::SourceIsBroadcast,
            },
        ),
        ("55 FF 00 10 05 00 00 9A", crc_mismatch(0x9A, 0x8C)),
        (
            "55 FF 00 10 05 00 00 8C FF",
            ValidationError::PayloadSizeMismatch {
                declared: 8,
                actual: 9,
            },
        ),
        (
            "55 FF 06 05 10 00 03 DA 01 22 30 10",
            ValidationError::PayloadSizeMismatch {
                declared: 13,
                actual: 12,
            },
        ),
        (
            "55 FF 06 05 10 00 03 DA 01 22 30 11 BD",
            crc_mismatch(0xBD11, 0xBD10),
        ),
    ] {
        let frame = octets(frame);
        assert_eq!(
            validate_mstp_frame(AnnexG, &frame),
            mstp(frame.len(), &[error], &[])
        );
    }
}

#[test]
fn mstp_data_length() {
    let frame = common::with_zeros("55 FF 00 00 00 01 F6 03", 502, "FC 0A");
    let too_long = ValidationError::InvalidHeader {
        reason: HeaderReason::DataLength(502),
    };
    assert_eq!(
        validate_mstp_frame(AnnexG, &frame),
        mstp(512, &[too_long], &[])
    );
}

#[test]
fn mstp_seven_errors() {
    let frame = common::with_zeros("00 00 08 00 FF 01 F6 00", 502, "00 00 00");
    for (rule, header_crc, data_crc) in [(AnnexG, 0x2E, 0x0AFC), (House, 0xA4, 0xE5BC)] {
        let errors = [
            ValidationError::InvalidPreamble {
                expected: vec![0x55, 0xFF],
                found: vec![0x00, 0x00],
            },
            ValidationError::InvalidFrameType { value: 8 },
            ValidationError::InvalidAddress {
                address: 255,
                reason: AddressReason::SourceIsBroadcast,
            },
            ValidationError::InvalidHeader {
                reason: HeaderReason::DataLength(502),
            },
            crc_mismatch(0x00, header_crc),
            ValidationError::PayloadSizeMismatch {
                declared: 512,
                actual: 513,
            },
            crc_mismatch(0x0000, data_crc),
        ];
        assert_eq!(validate_mstp_frame(rule, &frame), mstp(513, &errors, &[]));
    }
}

#[test]
fn mstp_warnings() {
    let master_to_slave = configuration(ConfigurationReason::MasterToSlave);
    let proprietary = |number| configuration(ConfigurationReason::ProprietaryType(number));
    for (rule, frame, warnings) in [
        (AnnexG, "55 FF 80 00 00 00 00 3F", vec![proprietary(128)]),
        (House, "55 FF 80 00 00 00 00 DD", vec![proprietary(128)]),
        (AnnexG, "55 FF FF 00 00 00 00 FF", vec![proprietary(255)]),
        (
            AnnexG,
            "55 FF 07 FE 7F 00 00 2E",
            vec![master_to_slave.clone()],
        ),
        (
            House,
            "55 FF 05 80 00 00 00 8F",
            vec![master_to_slave.clone()],
        ),
        (
            House,
            "55 FF 06 FE 7F 00 00 E0",
            vec![master_to_slave.clone()],
        ),
        (
            AnnexG,
            "55 FF 80 80 00 00 00 73",
            vec![proprietary(128), master_to_slave.clone()],
        ),
    ] {
        let expected = mstp(8, &[], &warnings);
        assert_eq!(validate_mstp_frame(rule, &octets(frame)), expected);
    }
}

/// Every type with every pair of addresses at the borders of masters, slaves and all stations.
#[test]
fn types_to_slaves() {
    for (rule, usual) in [(AnnexG, &[3, 5, 6][..]), (House, &[3])] {
        for kind in 0..=255 {
            for (destination, source) in pairs() {
                let header = [kind, destination, source, 0, 0];
                let check = calculate_header_crc(rule, &header);
                let frame = [&[0x55, 0xFF], &header[..], &[check]].concat();
                let to_slave = source < 128 && (128..255).contains(&destination);
                let warned = to_slave && !usual.contains(&kind);
                let result = validate_mstp_frame(rule, &frame);
                let warning = configuration(ConfigurationReason::MasterToSlave);
                assert_eq!(result.warnings.contains(&warning), warned, "{frame:02X?}");
                let valid = !(8..128).contains(&kind) && source != 255;
                assert_eq!(result.is_valid, valid, "{frame:02X?}");
                assert_eq!(validate_frame(rule, &frame), result);
                assert_eq!(analyze_frame(rule, &frame).unwrap().validation, result);
            }
        }
    }
}

/// Every destination and source at a border.
fn pairs() -> impl Iterator<Item = (u8, u8)> {
    let borders = [0, 127, 128, 254, 255];
    borders
        .into_iter()
        .flat_map(move |to| borders.map(|from| (to, from)))
}

#[test]
fn ip_valid() {
    for function in [
        0x00, 0x02, 0x03, 0x04, 0x05, 0x06, 0x07, 0x09, 0x0A, 0x0B, 0x0D,
    ] {
        let message = [0x81, function, 0x00, 0x05, 0x01];
        let expected = ip(5, &[], &[]);
        assert_eq!(validate_bacnet_ip_frame(&message), expected);
        assert_eq!(validate_frame(AnnexG, &message), expected);
    }
}

#[test]
fn ip_errors() {
    for (message, error) in [
        (
            "81 0B 00",
            ValidationError::FrameTooShort {
                size: 3,
                minimum: 4,
            },
        ),
        (
            "82 0B 00 04",
            ValidationError::InvalidPreamble {
                expected: vec![0x81],
                found: vec![0x82],
            },
        ),
        (
            "81 0E 00 04",
            ValidationError::InvalidFrameType { value: 0x0E },
        ),
        (
            "81 0B 01 02",
            ValidationError::PayloadSizeMismatch {
                declared: 258,
                actual: 4,
            },
        ),
    ] {
        let message = octets(message);
        let expected = ip(message.len(), &[error], &[]);
        assert_eq!(validate_bacnet_ip_frame(&message), expected);
    }
}

#[test]
fn ip_too_long() {
    let mut message = octets("81 0B 05 D9");
    message.resize(1497, 0);
    assert_eq!(validate_bacnet_ip_frame(&message), ip(1497, &[], &[]));
    message = octets("82 0E 00 00");
    message.resize(1498, 0);
    let errors = [
        ValidationError::InvalidPreamble {
            expected: vec![0x81],
            found: vec![0x82],
        },
        ValidationError::InvalidFrameType { value: 0x0E },
        ValidationError::PayloadSizeMismatch {
            declared: 0,
            actual: 1498,
        },
        ValidationError::FrameTooLong {
            size: 1498,
            maximum: 1497,
        },
    ];
    assert_eq!(validate_bacnet_ip_frame(&message), ip(1498, &errors, &[]));
}

#[test]
fn ip_warnings() {
    for (function, reason) in [
        (0x0C, SecurityReason::SecureBvll),
        (0x01, SecurityReason::TableModification),
        (0x08, SecurityReason::TableModification),
    ] {
        let message = [0x81, function, 0x00, 0x04];
        let warning = ValidationWarning::SecurityWarning { reason };
        assert_eq!(validate_bacnet_ip_frame(&message), ip(4, &[], &[warning]));
    }
}

#[test]
fn ethernet_valid() {
    for size in [17, 59, 61, 1514] {
        let expected = ethernet(size, &[], &[]);
        assert_eq!(validate_ethernet_frame(&ethernet_frame(size)), expected);
        assert_eq!(validate_frame(House, &ethernet_frame(size)), expected);
    }
}

#[test]
fn ethernet_errors() {
    let too_short = ValidationError::FrameTooShort {
        size: 16,
        minimum: 17,
    };
    assert_eq!(
        validate_ethernet_frame(&ethernet_frame(16)),
        ethernet(16, &[too_short], &[])
    );
    let mut frame = ethernet_frame(1515);
    frame[12..17].copy_from_slice(&[0x00, 0x0B, 0x82, 0x82, 0xE3]);
    let errors = [
        ValidationError::FrameTooLong {
            size: 1515,
            maximum: 1514,
        },
        ValidationError::InvalidHeader {
            reason: HeaderReason::EthernetType(0x000B),
        },
        ValidationError::InvalidHeader {
            reason: HeaderReason::LlcHeader([0x82, 0x82, 0xE3]),
        },
    ];
    assert_eq!(
        validate_ethernet_frame(&frame),
        ethernet(1515, &errors, &[])
    );
}

#[test]
fn ethernet_warnings() {
    let padded = ValidationWarning::UnusualFrameSize { size: 60 };
    let multicast = configuration(ConfigurationReason::Multicast);
    let mut frame = ethernet_frame(60);
    assert_eq!(
        validate_ethernet_frame(&frame),
        ethernet(60, &[], std::slice::from_ref(&padded))
    );
    frame[0] = 0x67;
    assert_eq!(
        validate_ethernet_frame(&frame),
        ethernet(60, &[], &[multicast, padded.clone()])
    );
    frame[..6].fill(0xFF);
    assert_eq!(
        validate_ethernet_frame(&frame),
        ethernet(60, &[], &[padded])
    );
}

#[test]
fn which_validator() {
    let empty = ValidationError::FrameTooShort {
        size: 0,
        minimum: 1,
    };
    let undetermined = ValidationError::InvalidHeader {
        reason: HeaderReason::Undetermined,
    };
    let too_short = |size, minimum| ValidationError::FrameTooShort { size, minimum };
    for rule in RULES {
        assert_eq!(
            validate_frame(rule, &[]),
            result(None, 0, std::slice::from_ref(&empty), &[])
        );
        assert_eq!(
            validate_frame(rule, &[0x55]),
            result(None, 1, std::slice::from_ref(&undetermined), &[])
        );
        assert_eq!(
            validate_frame(rule, &[0x55, 0xFF]),
            mstp(2, &[too_short(2, 8)], &[])
        );
        assert_eq!(
            validate_frame(rule, &[0x81]),
            ip(1, &[too_short(1, 4)], &[])
        );
        assert_eq!(
            validate_frame(rule, &ethernet_frame(14)),
            ethernet(14, &[too_short(14, 17)], &[])
        );
        assert_eq!(
            validate_frame(rule, &ethernet_frame(13)),
            result(None, 13, std::slice::from_ref(&undetermined), &[])
        );
    }
}

#[test]
fn the_rule_reaches_validate_frame() {
    let token = octets("55 FF 00 10 05 00 00 9A");
    assert_eq!(
        validate_frame(AnnexG, &token),
        mstp(8, &[crc_mismatch(0x9A, 0x8C)], &[])
    );
    assert_eq!(validate_frame(House, &token), mstp(8, &[], &[]));
}

#[test]
fn reasons_in_the_words_of_bacnet_rs() {
    let words: [(&dyn ToString, &str); 12] = [
        (
            &AddressReason::SourceIsBroadcast,
            "Source address cannot be broadcast (255)",
        ),
        (
            &HeaderReason::DataLength(502),
            "Data length 502 exceeds maximum 501",
        ),
        (
            &HeaderReason::EthernetType(0x000B),
            "Invalid Ethernet type: 0x000B, expected 0x82DC",
        ),
        (
            &HeaderReason::LlcHeader([0x82, 0x08, 0xE3]),
            "Invalid LLC header: [82, 08, E3], expected [82, 82, 03]",
        ),
        (
            &HeaderReason::Undetermined,
            "Unable to determine frame type",
        ),
        (
            &ConfigurationReason::ProprietaryType(128),
            "Proprietary frame type: 128",
        ),
        (
            &ConfigurationReason::MasterToSlave,
            "Master communicating with slave without Test Request",
        ),
        (
            &ConfigurationReason::Multicast,
            "Multicast address used instead of broadcast",
        ),
        (
            &SecurityReason::SecureBvll,
            "Secure BVLL should use proper encryption",
        ),
        (
            &SecurityReason::TableModification,
            "Table modification functions should be authenticated",
        ),
        (&SuspiciousReason::AllZeros, "Frame contains all zeros"),
        (
            &SuspiciousReason::TestSequence,
            "Frame starts with sequential test pattern",
        ),
    ];
    for (reason, text) in words {
        assert_eq!(reason.to_string(), text);
    }
}
