//! The check octets and the check tables.

mod common;

use common::{octets, sample};
use lefkanu::datalink::mstp::{calculate_header_crc, header_table};
use lefkanu::util::{crc16_mstp, data_table};
use lefkanu::CheckRule::{AnnexG, House};
use std::array::from_fn;

/// The check as document 01 has it, for either rule: shift right; if the bit shifted out was 1, XOR the constant.
fn shifted(ones: u32, constant: u32, octets: &[u8]) -> u32 {
    let step = |crc: u32| (crc >> 1) ^ if crc & 1 == 1 { constant } else { 0 };
    let octet = |crc: u32, &octet: &u8| (0..8).fold(crc ^ u32::from(octet), |crc, _| step(crc));
    octets.iter().fold(ones, octet) ^ ones
}

#[test]
fn header_checks() {
    for (header, annex_g, house) in [
        ([0x00, 0x10, 0x05, 0x00, 0x00], 0x8C, 0x9A),
        ([0x00, 0x00, 0x00, 0x00, 0x00], 0xFA, 0x98),
        ([0x06, 0x05, 0x10, 0x00, 0x03], 0xDA, 0xE0),
        ([0x00, 0x10, 0xAE, 0x00, 0x00], 0x0A, 0x9A),
    ] {
        assert_eq!(calculate_header_crc(AnnexG, &header), annex_g);
        assert_eq!(calculate_header_crc(House, &header), house);
    }
}

#[test]
fn header_checks_of_all_single_octets() {
    for place in 0..5 {
        for octet in 0..=0xFF {
            let mut header = [0x00, 0x10, 0x05, 0x00, 0x00];
            header[place] = octet;
            let expected = |constant| shifted(0xFF, constant, &header) as u8;
            assert_eq!(calculate_header_crc(AnnexG, &header), expected(0x81));
            assert_eq!(calculate_header_crc(House, &header), expected(0x55));
        }
    }
}

#[test]
fn data_checks() {
    for (data, annex_g, house) in [
        ("", 0x0000, 0x0000),
        ("01 22 30", 0xBD10, 0x4BC7),
        ("01 04 00 03 01 0C 0C 00 00 00 01 19 55", 0x6121, 0xFFA4),
    ] {
        assert_eq!(crc16_mstp(AnnexG, &octets(data)), annex_g);
        assert_eq!(crc16_mstp(House, &octets(data)), house);
    }
}

#[test]
fn data_checks_of_many_lengths() {
    let data: Vec<u8> = (0..70_000u32).map(|n| ((n * 37) >> 3) as u8).collect();
    for length in [1, 2, 7, 8, 9, 255, 256, 501, 65_535, 65_536, 70_000] {
        let expected = |constant| shifted(0xFFFF, constant, &data[..length]) as u16;
        assert_eq!(crc16_mstp(AnnexG, &data[..length]), expected(0x8408));
        assert_eq!(crc16_mstp(House, &data[..length]), expected(0xA001));
    }
}

#[test]
fn all_entries_of_the_tables() {
    for (rule, header_constant, data_constant) in [(AnnexG, 0x81, 0x8408), (House, 0x55, 0xA001)] {
        // From no bits one, a check of one octet is its eight steps.
        let header_entry = |octet| shifted(0, header_constant, &[octet as u8]) as u8;
        let data_entry = |octet| shifted(0, data_constant, &[octet as u8]) as u16;
        assert_eq!(header_table(rule), from_fn(header_entry));
        assert_eq!(data_table(rule), from_fn(data_entry));
    }
}

#[test]
fn some_entries_of_the_tables() {
    for (place, annex_g, house) in [
        (0, (0x00, 0x0000), (0x00, 0x0000)),
        (1, (0xFE, 0x1189), (0x49, 0xC0C1)),
        (128, (0x81, 0x8408), (0x55, 0xA001)),
        (255, (0x55, 0x0F78), (0x38, 0x4040)),
    ] {
        let entries = |rule| (header_table(rule)[place], data_table(rule)[place]);
        assert_eq!((entries(AnnexG), entries(House)), (annex_g, house));
    }
}

#[test]
fn checks_through_the_tables() {
    for rule in common::RULES {
        let (header_table, data_table) = (header_table(rule), data_table(rule));
        let header_octet = |crc: u8, &octet: &u8| header_table[usize::from(crc ^ octet)];
        let data_octet = |crc: u16, &octet: &u8| {
            data_table[usize::from((crc ^ u16::from(octet)) & 0xFF)] ^ (crc >> 8)
        };
        for frame in sample("samples/mstp-frames.txt") {
            let header: &[u8; 5] = frame[2..7].try_into().unwrap();
            let header_crc = header.iter().fold(0xFF, header_octet);
            assert_eq!(calculate_header_crc(rule, header), !header_crc);
            let behind = &frame[8..];
            let data_crc = behind.iter().fold(0xFFFF, data_octet);
            assert_eq!(crc16_mstp(rule, behind), !data_crc);
        }
    }
}
