//! The C functions themselves: what they answer, that a refusal writes nothing, and that beside a result nothing is
//! written.

use std::array::from_fn;

use crate::ffi::*;

const ANNEX_G: u8 = 0;
const HOUSE: u8 = 1;

const ETHER_TYPE: u8 = 0;
const LENGTH: u8 = 1;

// What lent memory is filled with.
const OCTET: u8 = 0xA5;
const WORD: u32 = 0xA5A5_A5A5;
const NUMBER: usize = 0xA5A5_A5A5_A5A5_A5A5;

const TOKEN: [u8; 8] = [0x55, 0xFF, 0x00, 0x10, 0x05, 0x00, 0x00, 0x8C];
const ANSWER: [u8; 13] = [
    0x55, 0xFF, 0x06, 0x05, 0x10, 0x00, 0x03, 0xDA, 0x01, 0x22, 0x30, 0x10, 0xBD,
];
const MAC: [u8; 6] = [0x66, 0x77, 0x88, 0x99, 0xAA, 0xBB];
const SOURCE: [u8; 6] = [0x11; 6];

/// Some octets with one of them changed.
fn changed<const N: usize>(mut octets: [u8; N], place: usize, octet: u8) -> [u8; N] {
    octets[place] = octet;
    octets
}

// SAFETY, here and below: pointers and lengths are of the same slice, and all that is written to are locals.

#[test]
fn layout_version() {
    assert_eq!(unsafe { lefkanu_layout_version() }, LAYOUT_VERSION);
}

#[test]
#[should_panic(expected = "another layout version")]
fn another_layout_version() {
    super::expect_layout(LAYOUT_VERSION + 1);
}

fn decode(rule: u8, frame: &[u8]) -> (u8, [usize; 8]) {
    let mut header = [NUMBER; 8];
    let answer = unsafe { lefkanu_mstp_decode(rule, frame.as_ptr(), frame.len(), &mut header) };
    (answer, header)
}

/// Lends the middle of a buffer, and gives the whole.
fn encode(rule: u8, frame_type: u8, data: &[u8], room: usize) -> (u8, Vec<u8>, usize) {
    let mut buffer = vec![OCTET; room + 32];
    let out = &mut buffer[16..16 + room];
    let mut count = NUMBER;
    let answer = unsafe {
        lefkanu_mstp_encode(
            rule,
            frame_type,
            16,
            5,
            data.as_ptr(),
            data.len(),
            out.as_mut_ptr(),
            out.len(),
            &mut count,
        )
    };
    (answer, buffer, count)
}

/// What reading of an Ethernet frame lends: both addresses, place and count of the payload.
type LentForReading = ([u8; 6], [u8; 6], [usize; 2]);

const UNTOUCHED: LentForReading = ([OCTET; 6], [OCTET; 6], [NUMBER; 2]);

fn decode_type(frame: &[u8]) -> (u8, LentForReading) {
    let (mut dest_mac, mut src_mac, mut payload) = UNTOUCHED;
    let answer = unsafe {
        lefkanu_ethernet_decode(
            frame.as_ptr(),
            frame.len(),
            &mut dest_mac,
            &mut src_mac,
            &mut payload,
        )
    };
    (answer, (dest_mac, src_mac, payload))
}

fn decode_form(form: u8, frame: &[u8]) -> (u8, LentForReading) {
    let (mut dest_mac, mut src_mac, mut payload) = UNTOUCHED;
    let answer = unsafe {
        lefkanu_ethernet_decode_form(
            form,
            frame.as_ptr(),
            frame.len(),
            &mut dest_mac,
            &mut src_mac,
            &mut payload,
        )
    };
    (answer, (dest_mac, src_mac, payload))
}

/// Lends the middle of a buffer, and gives the whole.
fn encode_type(payload: &[u8], room: usize) -> (u8, Vec<u8>, usize) {
    let mut buffer = vec![OCTET; room + 32];
    let out = &mut buffer[16..16 + room];
    let mut count = NUMBER;
    let answer = unsafe {
        lefkanu_ethernet_encode(
            &MAC,
            &SOURCE,
            payload.as_ptr(),
            payload.len(),
            out.as_mut_ptr(),
            out.len(),
            &mut count,
        )
    };
    (answer, buffer, count)
}

/// Lends the middle of a buffer, and gives the whole.
fn encode_form(form: u8, payload: &[u8], room: usize) -> (u8, Vec<u8>, usize) {
    let mut buffer = vec![OCTET; room + 32];
    let out = &mut buffer[16..16 + room];
    let mut count = NUMBER;
    let answer = unsafe {
        lefkanu_ethernet_encode_form(
            form,
            &MAC,
            &SOURCE,
            payload.as_ptr(),
            payload.len(),
            out.as_mut_ptr(),
            out.len(),
            &mut count,
        )
    };
    (answer, buffer, count)
}

fn patterns(frame: &[u8], room: usize) -> (u8, Vec<u32>, usize) {
    let mut buffer = vec![WORD; room + 8];
    let out = &mut buffer[4..4 + room];
    let mut count = NUMBER;
    let answer = unsafe {
        lefkanu_detect_patterns(
            frame.as_ptr(),
            frame.len(),
            out.as_mut_ptr(),
            out.len(),
            &mut count,
        )
    };
    (answer, buffer, count)
}

/// Lends the middle of a buffer, and gives the whole.
fn step(state: [usize; PADDING_NUMBERS], octet: u8) -> (u8, Vec<usize>) {
    let mut buffer = between_others(state);
    let lent = buffer[1..].first_chunk_mut().unwrap();
    let answer = unsafe { lefkanu_padding_step(lent, octet) };
    (answer, buffer)
}

/// A state with a number before it and one behind it.
fn between_others(state: [usize; PADDING_NUMBERS]) -> Vec<usize> {
    [&[NUMBER][..], &state, &[NUMBER]].concat()
}

fn read(rule: u8, run: &[u8], room: usize) -> (u8, Vec<u32>, usize) {
    let mut buffer = vec![WORD; room + 8];
    let out = &mut buffer[4..4 + room];
    let mut count = NUMBER;
    let answer = unsafe {
        lefkanu_read_frames(
            rule,
            run.as_ptr(),
            run.len(),
            out.as_mut_ptr(),
            out.len(),
            &mut count,
        )
    };
    (answer, buffer, count)
}

/// A number and a second, which may name a time.
type Timed = (u8, u32);

/// Lends the middle of a buffer, and gives the whole.
fn append(
    used: usize,
    kind: u8,
    (timed, second): Timed,
    payload: &[u8],
    room: usize,
) -> (u8, Vec<u8>, usize) {
    let mut whole = vec![OCTET; room + 32];
    let buffer = &mut whole[16..16 + room];
    let mut new_used = NUMBER;
    let answer = unsafe {
        lefkanu_append(
            buffer.as_mut_ptr(),
            buffer.len(),
            used,
            kind,
            timed,
            second,
            payload.as_ptr(),
            payload.len(),
            &mut new_used,
        )
    };
    (answer, whole, new_used)
}

#[test]
fn checks() {
    for rule in 0..=0xFF {
        let (mut header_crc, mut data_crc) = (OCTET, 0xA5A5);
        let header = [0x00, 0x10, 0x05, 0x00, 0x00];
        let data = [0x01, 0x22, 0x30];
        let header_answer = unsafe { lefkanu_calculate_header_crc(rule, &header, &mut header_crc) };
        let data_answer =
            unsafe { lefkanu_crc16_mstp(rule, data.as_ptr(), data.len(), &mut data_crc) };
        let (answer, expected) = match rule {
            ANNEX_G => (0, (0x8C, 0xBD10)),
            HOUSE => (0, (0x9A, 0x4BC7)),
            _ => (NO_CASE, (OCTET, 0xA5A5)),
        };
        assert_eq!((header_answer, data_answer), (answer, answer));
        assert_eq!((header_crc, data_crc), expected);
    }
}

/// A number after eight steps: shift right; if the bit shifted out was 1, XOR the constant.
fn stepped(number: usize, constant: usize) -> usize {
    let step = |crc, _| (crc >> 1) ^ if crc & 1 == 1 { constant } else { 0 };
    (0..8).fold(number, step)
}

fn header_entries(constant: usize) -> [u8; TABLE_ENTRIES] {
    from_fn(|number| stepped(number, constant) as u8)
}

fn data_entries(constant: usize) -> [u16; TABLE_ENTRIES] {
    from_fn(|number| stepped(number, constant) as u16)
}

// Each entry is written: none equals both fillings.
#[test]
fn tables() {
    for (rule, filling) in (0..=0xFF).flat_map(|rule| [(rule, 0x00), (rule, OCTET)]) {
        let octets = [filling; TABLE_ENTRIES];
        let words = [u16::from_ne_bytes([filling; 2]); TABLE_ENTRIES];
        // The middle is lent.
        let (mut header_tables, mut data_tables) = ([octets; 3], [words; 3]);
        let header_answer = unsafe { lefkanu_header_table(rule, &mut header_tables[1]) };
        let data_answer = unsafe { lefkanu_data_table(rule, &mut data_tables[1]) };
        let (answer, header_table, data_table) = match rule {
            ANNEX_G => (0, header_entries(0x81), data_entries(0x8408)),
            HOUSE => (0, header_entries(0x55), data_entries(0xA001)),
            _ => (NO_CASE, octets, words),
        };
        assert_eq!((header_answer, data_answer), (answer, answer));
        assert_eq!(header_tables, [octets, header_table, octets]);
        assert_eq!(data_tables, [words, data_table, words]);
    }
}

#[test]
fn mstp_decode() {
    assert_eq!(decode(ANNEX_G, &TOKEN), (0, [0, 16, 5, 0x8C, 0, 0, 8, 0]));
    assert_eq!(
        decode(ANNEX_G, &ANSWER),
        (0, [6, 5, 16, 0xDA, 1, 0xBD10, 8, 3])
    );
    for (answer, rule, frame) in [
        (1, ANNEX_G, &TOKEN[..7]),
        (1, ANNEX_G, &[]),
        (2, ANNEX_G, &changed(TOKEN, 0, 0x54)),
        (3, ANNEX_G, &changed(TOKEN, 2, 0x08)),
        (4, ANNEX_G, &changed(TOKEN, 3, 0x11)),
        (4, HOUSE, &TOKEN),
        (5, ANNEX_G, &ANSWER[..12]),
        (6, ANNEX_G, &changed(ANSWER, 8, 0x02)),
        (NO_CASE, 2, &TOKEN),
        (NO_CASE, 0xFF, &[]),
    ] {
        assert_eq!(decode(rule, frame), (answer, [NUMBER; 8]));
    }
}

#[test]
fn mstp_encode() {
    let mut expected = vec![OCTET; 42];
    expected[16..24].copy_from_slice(&TOKEN);
    assert_eq!(encode(ANNEX_G, 0, &[], 10), (0, expected, 8));
    for (answer, rule, frame_type, data, room) in [
        (7, ANNEX_G, 0, 502, 600),
        (7, HOUSE, 7, 502, 0),
        (8, ANNEX_G, 0, 0, 7),
        (8, HOUSE, 0, 3, 12),
        (8, ANNEX_G, 0, 0, 0),
        (NO_CASE, 2, 0, 0, 10),
        (NO_CASE, ANNEX_G, 8, 0, 10),
        (NO_CASE, ANNEX_G, 0xFF, 502, 0),
    ] {
        let expected = (answer, vec![OCTET; room + 32], NUMBER);
        assert_eq!(encode(rule, frame_type, &vec![1; data], room), expected);
    }
}

#[test]
fn bvlc_decode() {
    for (answer, message, expected) in [
        (0, &[0x81, 0x0C, 0x12, 0x34, 0xFF][..], [0x0C, 0x1234]),
        (11, &[0x81, 0x0B, 0x00], [NUMBER; 2]),
        (12, &[0x80, 0x0B, 0x00, 0x04], [NUMBER; 2]),
        (13, &[0x81, 0x0D, 0x00, 0x04], [NUMBER; 2]),
    ] {
        let mut header = [NUMBER; 2];
        let answered = unsafe { lefkanu_bvlc_decode(message.as_ptr(), message.len(), &mut header) };
        assert_eq!((answered, header), (answer, expected));
    }
}

#[test]
fn bvlc_encode() {
    for (answer, function, room) in [
        (0, 0x0A, 6),
        (16, 0x0A, 3),
        (16, 0x00, 0),
        (NO_CASE, 0x0D, 6),
    ] {
        let mut buffer = vec![OCTET; room + 32];
        let out = &mut buffer[16..16 + room];
        let mut count = NUMBER;
        let answered = unsafe {
            lefkanu_bvlc_encode(function, 0x1234, out.as_mut_ptr(), out.len(), &mut count)
        };
        let mut expected = vec![OCTET; room + 32];
        if answer == 0 {
            expected[16..20].copy_from_slice(&[0x81, function, 0x12, 0x34]);
        }
        assert_eq!(answered, answer);
        assert_eq!(buffer, expected);
        assert_eq!(count, if answer == 0 { 4 } else { NUMBER });
    }
}

#[test]
fn process_bvlc_message() {
    for (answer, message, expected) in [
        (0, &[0x81, 0x0B, 0x00, 0x06, 0x01, 0x20][..], [NPDU, 4, 2]),
        (
            0,
            &[0x81, 0x05, 0x00, 0x06, 0x01, 0x2C],
            [TIME_TO_LIVE, 300, 0],
        ),
        (0, &[0x81, 0x09, 0x00, 0x05, 0x01], [NO_NPDU, 0, 0]),
        (11, &[], [NUMBER; 3]),
        (12, &[0x82, 0x0B, 0x00, 0x05, 0x01], [NUMBER; 3]),
        (13, &[0x81, 0x0D, 0x00, 0x04], [NUMBER; 3]),
        (14, &[0x81, 0x0B, 0x00, 0x06, 0x01], [NUMBER; 3]),
        (15, &[0x81, 0x0B, 0x00, 0x04], [NUMBER; 3]),
    ] {
        let mut carried = [NUMBER; 3];
        let answered =
            unsafe { lefkanu_process_bvlc_message(message.as_ptr(), message.len(), &mut carried) };
        assert_eq!((answered, carried), (answer, expected));
    }
}

/// A frame: the addresses, five octets, then so many of one value.
fn ethernet(five: [u8; 5], octet: u8, more: usize) -> Vec<u8> {
    [&MAC[..], &SOURCE, &five, &vec![octet; more]].concat()
}

#[test]
fn ethernet_decode() {
    let five = [0x82, 0xDC, 0x82, 0x82, 0x03];
    let read = |count| (MAC, SOURCE, [17, count]);
    for (answer, frame, expected) in [
        (0, ethernet(five, 0x01, 1), read(1)),
        (0, ethernet(five, 0x01, 0), read(0)),
        (21, ethernet(five, 0, 0)[..16].to_vec(), UNTOUCHED),
        (21, vec![], UNTOUCHED),
        (22, ethernet(changed(five, 0, 0x00), 0, 1), UNTOUCHED),
        (
            22,
            ethernet([0x00, 0x04, 0x82, 0x82, 0x03], 0, 1),
            UNTOUCHED,
        ),
        (
            22,
            ethernet([0x00, 0x04, 0x82, 0x82, 0xE3], 0, 1),
            UNTOUCHED,
        ),
        (23, ethernet(changed(five, 4, 0xE3), 0, 1), UNTOUCHED),
    ] {
        assert_eq!(decode_type(&frame), (answer, expected));
        assert_eq!(decode_form(ETHER_TYPE, &frame), (answer, expected));
        let valid = unsafe { lefkanu_ethernet_validate(frame.as_ptr(), frame.len()) };
        assert_eq!(valid, answer);
    }
    // Reading does not ask question 24.
    let long = ethernet(five, 0x01, 1498);
    assert_eq!(decode_type(&long), (0, read(1498)));
    assert_eq!(decode_form(ETHER_TYPE, &long), (0, read(1498)));
}

#[test]
fn ethernet_decode_length() {
    let llc = |high, low| [high, low, 0x82, 0x82, 0x03];
    for (frame, count) in [
        // All that is there, nothing, the most.
        (ethernet(llc(0, 3), 0, 0), 0),
        (ethernet(llc(0, 4), 0x01, 1), 1),
        (ethernet(llc(0x05, 0xDC), 0x01, 1497), 1497),
        // High octet first.
        (ethernet(llc(0x00, 0xFF), 0x01, 252), 252),
        (ethernet(llc(0x01, 0x02), 0x01, 255), 255),
        // What is behind the payload is ignored.
        (ethernet(llc(0, 3), 0x00, 43), 0),
        (ethernet(llc(0, 4), 0xFF, 2), 1),
        (ethernet(llc(0, 3), 0xFF, 1497), 0),
        (ethernet(llc(0x05, 0xDB), 0x01, 1497), 1496),
        // Zeros that are counted are payload.
        (ethernet(llc(0, 4), 0x00, 43), 1),
        (ethernet(llc(0, 46), 0x00, 43), 43),
    ] {
        let expected = (0, (MAC, SOURCE, [17, count]));
        assert_eq!(decode_form(LENGTH, &frame), expected);
    }
    let wrong_llc = |high, low| [high, low, 0xAA, 0xAA, 0x03];
    for (answer, frame) in [
        (21, vec![]),
        (21, ethernet(llc(0, 3), 0, 0)[..16].to_vec()),
        (24, ethernet(llc(0x05, 0xDC), 0, 1498)),
        (61, ethernet(llc(0, 0), 0, 43)),
        (61, ethernet(llc(0, 2), 0, 43)),
        (61, ethernet(llc(0x05, 0xDD), 0, 1497)),
        (61, ethernet(llc(0x82, 0xDC), 0, 43)),
        (62, ethernet(llc(0, 4), 0, 0)),
        (62, ethernet(llc(0x05, 0xDC), 0, 1496)),
        (23, ethernet([0, 3, 0x83, 0x82, 0x03], 0, 43)),
        (23, ethernet([0, 3, 0x82, 0x83, 0x03], 0, 43)),
        (23, ethernet([0, 3, 0x82, 0x82, 0xE3], 0, 43)),
        // Several questions fail: the first is answered.
        (21, ethernet(wrong_llc(0, 2), 0, 0)[..16].to_vec()),
        (24, ethernet(wrong_llc(0, 2), 0, 1498)),
        (24, ethernet(wrong_llc(0x05, 0xDD), 0, 1498)),
        (61, ethernet(wrong_llc(0, 2), 0, 0)),
        (61, ethernet(wrong_llc(0x05, 0xDD), 0, 1496)),
        (62, ethernet(wrong_llc(0, 4), 0, 0)),
        (62, ethernet(wrong_llc(0x05, 0xDC), 0, 1496)),
    ] {
        assert_eq!(decode_form(LENGTH, &frame), (answer, UNTOUCHED));
    }
}

#[test]
fn ethernet_encode() {
    for (answer, payload, room) in [
        (0, 1, 62),
        (0, 1, 60),
        (0, 1497, 1514),
        (24, 1498, 1600),
        (24, 1498, 0),
        (25, 1, 59),
        (25, 44, 60),
        (25, 1497, 1513),
        (25, 0, 0),
    ] {
        let [high, low] = (payload as u16 + 3).to_be_bytes();
        let payload = vec![0x41; payload];
        let expected = |first, second| {
            let mut expected = vec![OCTET; room + 32];
            if answer != 0 {
                return (answer, expected, NUMBER);
            }
            let mut frame = ethernet([first, second, 0x82, 0x82, 0x03], 0x41, payload.len());
            frame.resize(frame.len().max(60), 0);
            expected[16..16 + frame.len()].copy_from_slice(&frame);
            (0, expected, frame.len())
        };
        let with_type = expected(0x82, 0xDC);
        assert_eq!(encode_type(&payload, room), with_type);
        assert_eq!(encode_form(ETHER_TYPE, &payload, room), with_type);
        assert_eq!(encode_form(LENGTH, &payload, room), expected(high, low));
    }
}

#[test]
fn ethernet_forms() {
    let frames = [
        ethernet([0x82, 0xDC, 0x82, 0x82, 0x03], 0x01, 1),
        ethernet([0x00, 0x04, 0x82, 0x82, 0x03], 0x01, 1),
        ethernet([0x00, 0x02, 0xAA, 0xAA, 0x03], 0x01, 1498),
        vec![],
    ];
    for form in 2..=0xFF {
        for frame in &frames {
            assert_eq!(decode_form(form, frame), (NO_CASE, UNTOUCHED));
        }
        for (payload, room) in [(1, 62), (1, 0), (1498, 1600), (1498, 0)] {
            let expected = (NO_CASE, vec![OCTET; room + 32], NUMBER);
            assert_eq!(encode_form(form, &vec![0x41; payload], room), expected);
        }
    }
}

#[test]
fn validators() {
    let mut valid = [0; RESULT_NUMBERS];
    valid[..3].copy_from_slice(&[1, 3, 8]);
    let mut mismatch = [0; RESULT_NUMBERS];
    mismatch[..8].copy_from_slice(&[0, 3, 8, 1, 0, 4, 0x8C, 0x9A]);
    for (rule, answer, expected) in [
        (ANNEX_G, 0, valid),
        (HOUSE, 0, mismatch),
        (2, NO_CASE, [NUMBER; RESULT_NUMBERS]),
    ] {
        let mut result = [NUMBER; RESULT_NUMBERS];
        let answered =
            unsafe { lefkanu_validate_mstp_frame(rule, TOKEN.as_ptr(), TOKEN.len(), &mut result) };
        assert_eq!((answered, result), (answer, expected));
        let mut result = [NUMBER; RESULT_NUMBERS];
        let answered =
            unsafe { lefkanu_validate_frame(rule, TOKEN.as_ptr(), TOKEN.len(), &mut result) };
        assert_eq!((answered, result), (answer, expected));
    }
}

#[test]
fn validators_without_a_rule() {
    let mut ip = [NUMBER; RESULT_NUMBERS];
    unsafe { lefkanu_validate_bacnet_ip_frame(TOKEN.as_ptr(), 3, &mut ip) };
    let mut expected = [0; RESULT_NUMBERS];
    expected[..8].copy_from_slice(&[0, 1, 3, 1, 0, 1, 3, 4]);
    assert_eq!(ip, expected);
    let mut ethernet = [NUMBER; RESULT_NUMBERS];
    unsafe { lefkanu_validate_ethernet_frame(TOKEN.as_ptr(), 8, &mut ethernet) };
    expected[..8].copy_from_slice(&[0, 2, 8, 1, 0, 1, 8, 17]);
    assert_eq!(ethernet, expected);
}

#[test]
fn statistics() {
    for (answer, octets) in [(0, 65_535), (31, 65_536)] {
        let frame = vec![0x80; octets];
        let (mut byte_distribution, mut counts) = ([WORD; 256], [NUMBER; COUNT_NUMBERS]);
        let answered = unsafe {
            lefkanu_calculate_frame_statistics(
                frame.as_ptr(),
                frame.len(),
                &mut byte_distribution,
                &mut counts,
            )
        };
        assert_eq!(answered, answer);
        if answer == 0 {
            let mut expected = [0; 256];
            expected[0x80] = 65_535;
            assert_eq!(byte_distribution, expected);
            assert_eq!(counts, [0, 65_535, 0x80, 65_535, 0]);
        } else {
            assert_eq!(byte_distribution, [WORD; 256]);
            assert_eq!(counts, [NUMBER; COUNT_NUMBERS]);
        }
    }
}

#[test]
fn detect_patterns() {
    let mut expected = vec![WORD; 18];
    expected[4..12].copy_from_slice(&[1, 1, 4, 0x41, 2, 0, 5, 0]);
    assert_eq!(patterns(&[0x41; 5], 10), (0, expected, 2));
    for (answer, frame, room) in [
        (31, vec![0; 65_536], 100),
        (31, vec![0; 65_536], 0),
        (32, vec![0x41; 4], 3),
        (32, vec![0x41; 5], 7),
        (32, vec![0x41; 4], 0),
    ] {
        let expected = (answer, vec![WORD; room + 8], NUMBER);
        assert_eq!(patterns(&frame, room), expected);
    }
}

// Numbers that are no state: the first above 1, or the second above 255. Of the last four the lowest octet, or half,
// would be one.
const NO_STATES: [[usize; PADDING_NUMBERS]; 12] = [
    [2, 0, 0],
    [2, 0x41, 5],
    [0, 256, 0],
    [1, 256, 5],
    [2, 256, 5],
    [usize::MAX, 0x41, 5],
    [1, usize::MAX, 5],
    [usize::MAX; PADDING_NUMBERS],
    [0x100, 0x41, 5],
    [0x1_0000_0001, 0x41, 5],
    [1, 0x141, 5],
    [1, 0x1_0000_0041, 5],
];

#[test]
fn padding_step() {
    const MAX: usize = usize::MAX;
    for (state, octet, expected) in [
        ([0, 0, 0], 0x41, [1, 0x41, 0]),
        ([0, 0, 0], 0x00, [1, 0x00, 0]),
        ([1, 0x41, 0], 0x41, [1, 0x41, 1]),
        ([1, 0x41, 3], 0x41, [1, 0x41, 4]),
        ([1, 0x41, 0], 0xFF, [1, 0xFF, 1]),
        ([1, 0xFF, 9], 0x41, [1, 0x41, 1]),
        ([0, 7, 9], 8, [1, 8, 0]),
        ([0, 8, 9], 8, [1, 8, 0]),
        ([1, 0x41, 0xFFFF_FFFF], 0x41, [1, 0x41, 0x1_0000_0000]),
        ([1, 0x41, MAX - 1], 0x41, [1, 0x41, MAX]),
        ([1, 0x41, MAX], 0x41, [1, 0x41, MAX]),
        ([1, 0x41, MAX], 0x42, [1, 0x42, 1]),
    ] {
        assert_eq!(step(state, octet), (0, between_others(expected)));
    }
    for state in NO_STATES {
        assert_eq!(step(state, 0x41), (NO_CASE, between_others(state)));
    }
}

#[test]
fn padding_length() {
    const MAX: usize = usize::MAX;
    for (state, expected) in [
        ([0, 0, 0], 0),
        ([1, 0x41, 0], 0),
        ([1, 0x41, 3], 0),
        ([1, 0x41, 4], 4),
        ([1, 0xFF, 65_536], 65_536),
        ([0, 7, 9], 9),
        ([1, 0x41, 0x1_0000_0003], 0x1_0000_0003),
        ([1, 0x41, MAX], MAX),
    ] {
        let (lent, mut length) = (state, NUMBER);
        let answered = unsafe { lefkanu_padding_length(&lent, &mut length) };
        assert_eq!((answered, lent, length), (0, state, expected));
    }
    for state in NO_STATES {
        let (lent, mut length) = (state, NUMBER);
        let answered = unsafe { lefkanu_padding_length(&lent, &mut length) };
        assert_eq!((answered, lent, length), (NO_CASE, state, NUMBER));
    }
}

#[test]
fn analyze_frame() {
    let mut findings = [0; RESULT_NUMBERS];
    findings[..8].copy_from_slice(&[0, 0, 4, 1, 0, 7, 4, 0]);
    for (answer, rule, octets, room) in [
        (0, HOUSE, 4, 6),
        (31, ANNEX_G, 65_536, 100),
        (32, ANNEX_G, 4, 3),
        (NO_CASE, 2, 4, 100),
    ] {
        let frame = vec![0x41; octets];
        let mut result = [NUMBER; RESULT_NUMBERS];
        let (mut byte_distribution, mut counts) = ([WORD; 256], [NUMBER; COUNT_NUMBERS]);
        let mut buffer = vec![WORD; room + 8];
        let out = &mut buffer[4..4 + room];
        let mut count = NUMBER;
        let answered = unsafe {
            lefkanu_analyze_frame(
                rule,
                frame.as_ptr(),
                frame.len(),
                &mut result,
                &mut byte_distribution,
                &mut counts,
                out.as_mut_ptr(),
                out.len(),
                &mut count,
            )
        };
        assert_eq!(answered, answer);
        let mut expected = vec![WORD; room + 8];
        if answer == 0 {
            expected[4..8].copy_from_slice(&[2, 0, 4, 0]);
            assert_eq!(result, findings);
            assert_eq!(byte_distribution[0x41], 4);
            assert_eq!(byte_distribution.iter().sum::<u32>(), 4);
            assert_eq!((counts, count), ([0, 0, 0x41, 4, 0], 1));
        } else {
            assert_eq!(result, [NUMBER; RESULT_NUMBERS]);
            assert_eq!(byte_distribution, [WORD; 256]);
            assert_eq!((counts, count), ([NUMBER; COUNT_NUMBERS], NUMBER));
        }
        assert_eq!(buffer, expected);
    }
}

#[test]
fn find_frame() {
    let long = [0x55; 65_536];
    for (answer, rule, run, place, expected) in [
        (0, ANNEX_G, &ANSWER[..], 0, [0, 13]),
        (NONE, ANNEX_G, &ANSWER, 1, [NUMBER; 2]),
        (NONE, HOUSE, &ANSWER, 0, [NUMBER; 2]),
        (NONE, HOUSE, &[], 0, [NUMBER; 2]),
        (31, ANNEX_G, &long, 0, [NUMBER; 2]),
        (33, ANNEX_G, &ANSWER, 14, [NUMBER; 2]),
        (NO_CASE, 2, &ANSWER, 0, [NUMBER; 2]),
    ] {
        let mut report = [NUMBER; 2];
        let answered =
            unsafe { lefkanu_find_frame(rule, run.as_ptr(), run.len(), place, &mut report) };
        assert_eq!((answered, report), (answer, expected));
    }
}

#[test]
fn count_frames() {
    let long = [0x55; 65_536];
    for (answer, rule, run, expected) in [
        (0, ANNEX_G, &TOKEN[..], 1),
        (0, HOUSE, &TOKEN, 0),
        (31, ANNEX_G, &long, NUMBER),
        (NO_CASE, 2, &TOKEN, NUMBER),
    ] {
        let mut count = NUMBER;
        let answered = unsafe { lefkanu_count_frames(rule, run.as_ptr(), run.len(), &mut count) };
        assert_eq!((answered, count), (answer, expected));
    }
}

#[test]
fn read_frames() {
    let run = [&TOKEN[..], &ANSWER].concat();
    let mut expected = vec![WORD; 13];
    expected[4..8].copy_from_slice(&[0, 8, 8, 13]);
    assert_eq!(read(ANNEX_G, &run, 5), (0, expected, 2));
    let long = [0x55; 65_536];
    for (answer, rule, run, room) in [
        (31, ANNEX_G, &long[..], 100),
        (32, ANNEX_G, &run, 3),
        (32, ANNEX_G, &run, 0),
        (NO_CASE, 2, &run, 100),
    ] {
        let expected = (answer, vec![WORD; room + 8], NUMBER);
        assert_eq!(read(rule, run, room), expected);
    }
}

#[test]
fn read_record() {
    const UNTOUCHED: [usize; RECORD_NUMBERS] = [NUMBER; RECORD_NUMBERS];
    let log = [0x81, 0x06, 0x02, 0x00, 0x02];
    let timed = [0x81, 0x06, 0x01, 0x02, 0x03, 0x04, 0x0C, 0x00, 0x02];
    let highest = [0x81, 0x06, 0xFF, 0xFF, 0xFF, 0xFF, 0x0D, 0x00, 0x02];
    let zero = [0x81, 0x06, 0x00, 0x00, 0x00, 0x00, 0x0B, 0x00, 0x02];
    for (answer, log, end, expected) in [
        (0, &log[..], 5, [2, 0, 2, 0, 0]),
        (0, &timed, 9, [2, 0, 2, 1, 0x0102_0304]),
        (0, &highest, 9, [3, 0, 2, 1, 0xFFFF_FFFF]),
        (0, &zero, 9, [1, 0, 2, 1, 0]),
        (0, &changed(zero, 8, 1), 9, [1, 1, 1, 1, 0]),
        (NONE, &log, 0, UNTOUCHED),
        (47, &log, 6, UNTOUCHED),
        (41, &log, 2, UNTOUCHED),
        (42, &log, 3, UNTOUCHED),
        (42, &changed(log, 2, 4), 5, UNTOUCHED),
        (42, &changed(zero, 6, 0x0A), 9, UNTOUCHED),
        (42, &changed(zero, 6, 0x0E), 9, UNTOUCHED),
        (43, &changed(log, 4, 0), 5, UNTOUCHED),
        (43, &changed(zero, 8, 0), 9, UNTOUCHED),
        (44, &changed(log, 4, 3), 5, UNTOUCHED),
        (44, &changed(zero, 8, 3), 9, UNTOUCHED),
        // A time that is not all there, and none of it.
        (44, &zero[3..], 6, UNTOUCHED),
        (44, &changed(log, 2, 0x0B), 5, UNTOUCHED),
        (44, &zero[6..], 3, UNTOUCHED),
    ] {
        let mut record = UNTOUCHED;
        let answered = unsafe { lefkanu_read_record(log.as_ptr(), log.len(), end, &mut record) };
        assert_eq!((answered, record), (answer, expected));
    }
}

#[test]
fn append_record() {
    // Without a time the second is not looked at.
    for (used, kind, time, written) in [
        (3, 2, (NO_TIME, 0), &[0x81, 0x06, 0x02, 0x00, 0x02][..]),
        (3, 2, (NO_TIME, 7), &[0x81, 0x06, 0x02, 0x00, 0x02]),
        (
            1,
            2,
            (SECOND, 0x0102_0304),
            &[0x81, 0x06, 0x01, 0x02, 0x03, 0x04, 0x0C, 0x00, 0x02],
        ),
        (
            0,
            1,
            (SECOND, 0),
            &[0x81, 0x06, 0x00, 0x00, 0x00, 0x00, 0x0B, 0x00, 0x02],
        ),
        (
            0,
            3,
            (SECOND, u32::MAX),
            &[0x81, 0x06, 0xFF, 0xFF, 0xFF, 0xFF, 0x0D, 0x00, 0x02],
        ),
    ] {
        let new_used = used + written.len();
        let mut expected = vec![OCTET; 42];
        expected[16 + used..16 + new_used].copy_from_slice(written);
        let appended = append(used, kind, time, &[0x81, 0x06], 10);
        assert_eq!(appended, (0, expected, new_used));
    }
    let (none, second) = ((NO_TIME, 0), (SECOND, 0));
    for (answer, used, kind, time, payload, room) in [
        (47, 11, 1, none, 1, 10),
        (47, 11, 1, second, 1, 10),
        (42, 0, 0, none, 1, 10),
        (42, 0, 4, none, 1, 10),
        (42, 0, 4, second, 1, 10),
        // The octets of kinds with a time are no kinds.
        (42, 0, 11, none, 1, 10),
        (42, 0, 12, second, 1, 10),
        (42, 0, 13, second, 1, 10),
        (43, 0, 1, none, 0, 10),
        (43, 0, 1, second, 0, 10),
        (43, 0, 1, none, 1515, 2000),
        (43, 0, 1, second, 1515, 2000),
        (46, 7, 1, none, 1, 10),
        (46, 0, 1, none, 1, 0),
        // The four octets of the time count.
        (46, 3, 1, second, 1, 10),
        (46, 0, 1, second, 4, 10),
        (46, 0, 1, second, 1514, 1520),
        // No time, before any question is asked.
        (NO_CASE, 0, 1, (2, 0), 1, 10),
        (NO_CASE, 0, 1, (0xFF, 0), 1, 10),
        (NO_CASE, 11, 0, (2, 0), 0, 10),
    ] {
        let expected = (answer, vec![OCTET; room + 32], NUMBER);
        assert_eq!(append(used, kind, time, &vec![1; payload], room), expected);
    }
}
