//! The only place with unsafe code: a safe function for each one of the library.
//!
//! What a caller of the library has to keep, and who keeps it here:
//! - a pointer comes with its length: both come from one slice, or the pointer is to an array of the size declared;
//! - no pointer is null: references and slices have none, an empty slice a dangling one that is not null;
//! - memory that is written to overlaps no other, and nobody else writes to any of it meanwhile: it is behind `&mut`, or
//!   a local; the rest is behind `&`;
//! - the library has the layout that `ffi` declares: `same_layout` asks before the first call.
//!
//! The answer FF, for a number that names no rule, form, type, function, time or state, does not come: the numbers are
//! those of the cases of `CheckRule` (0, 1), `EthernetForm` (0, 1), `MstpFrameType` (0 to 7) and `BvlcFunction` (00 to
//! 0C), and these are all named; a time is 0 for `None` and 1 for `Some`; those of a state are made from a `bool` (0,
//! 1), a `u8` (0 to 255) and a `usize`, and all of these are states.
//!
//! Places and counts that are answered lie within the caller's octets.

use std::sync::OnceLock;

use crate::cases::{BvlcFunction, CheckRule, EthernetForm, MstpFrameType, RecordKind};
use crate::error::{DataLinkError, Result};
use crate::ffi;

#[cfg(test)]
mod tests;

/// What a validator answers, as numbers.
pub(crate) type Findings = [usize; ffi::RESULT_NUMBERS];

/// What the statistics answer, as numbers.
pub(crate) struct Counts {
    pub(crate) byte_distribution: [u32; 256],
    pub(crate) counts: [usize; ffi::COUNT_NUMBERS],
}

/// A state of the padding search, as numbers.
pub(crate) type PaddingNumbers = [usize; ffi::PADDING_NUMBERS];

/// A record of a log, as numbers.
pub(crate) type RecordNumbers = [usize; ffi::RECORD_NUMBERS];

/// What a BVLC message carries, with places in the message.
pub(crate) enum Carried {
    Npdu { place: usize, count: usize },
    TimeToLive(u16),
    NoNpdu,
}

/// Panics unless the library has the layout that is declared here.
fn same_layout() {
    static VERSION: OnceLock<u32> = OnceLock::new();
    // SAFETY: nothing is lent.
    expect_layout(*VERSION.get_or_init(|| unsafe { ffi::lefkanu_layout_version() }));
}

fn expect_layout(version: u32) {
    assert_eq!(
        version,
        ffi::LAYOUT_VERSION,
        "liblefkanu.a has another layout version than the crate lefkanu"
    );
}

/// The value, if the answer is 0; else the question's error.
fn answered<T>(answer: u8, value: T) -> Result<T> {
    debug_assert_ne!(answer, ffi::NO_CASE);
    match answer {
        0 => Ok(value),
        question => Err(data_link_error(question)),
    }
}

/// The value, if the answer is 0; nothing, if it is "none"; else the question's error.
fn found<T>(answer: u8, value: T) -> Result<Option<T>> {
    match answer {
        ffi::NONE => Ok(None),
        _ => answered(answer, Some(value)),
    }
}

/// The value of a function that refuses nothing but what is no case.
fn given<T>(answer: u8, value: T) -> T {
    debug_assert_eq!(answer, 0);
    value
}

pub(crate) fn data_link_error(question: u8) -> DataLinkError {
    same_layout();
    // SAFETY: numbers only.
    match unsafe { ffi::lefkanu_data_link_error(question) } {
        1 => DataLinkError::InvalidFrame(question),
        2 => DataLinkError::CrcError(question),
        _ => DataLinkError::Refused(question),
    }
}

pub(crate) fn calculate_header_crc(rule: CheckRule, header: &[u8; 5]) -> u8 {
    same_layout();
    let mut crc = 0;
    // SAFETY: `header` has five octets; `crc` is a local.
    let answer = unsafe { ffi::lefkanu_calculate_header_crc(rule as u8, header, &mut crc) };
    given(answer, crc)
}

pub(crate) fn crc16_mstp(rule: CheckRule, data: &[u8]) -> u16 {
    same_layout();
    let mut crc = 0;
    // SAFETY: pointer and length are of `data`; `crc` is a local.
    let answer =
        unsafe { ffi::lefkanu_crc16_mstp(rule as u8, data.as_ptr(), data.len(), &mut crc) };
    given(answer, crc)
}

pub(crate) fn header_table(rule: CheckRule) -> [u8; ffi::TABLE_ENTRIES] {
    same_layout();
    let mut table = [0; ffi::TABLE_ENTRIES];
    // SAFETY: `table` is a local of the size declared.
    let answer = unsafe { ffi::lefkanu_header_table(rule as u8, &mut table) };
    given(answer, table)
}

pub(crate) fn data_table(rule: CheckRule) -> [u16; ffi::TABLE_ENTRIES] {
    same_layout();
    let mut table = [0; ffi::TABLE_ENTRIES];
    // SAFETY: `table` is a local of the size declared.
    let answer = unsafe { ffi::lefkanu_data_table(rule as u8, &mut table) };
    given(answer, table)
}

pub(crate) fn mstp_decode(rule: CheckRule, frame: &[u8]) -> Result<[usize; 8]> {
    same_layout();
    let mut header = [0; 8];
    // SAFETY: pointer and length are of `frame`; `header` is a local of eight numbers.
    let answer =
        unsafe { ffi::lefkanu_mstp_decode(rule as u8, frame.as_ptr(), frame.len(), &mut header) };
    answered(answer, header)
}

pub(crate) fn mstp_encode(
    rule: CheckRule,
    frame_type: MstpFrameType,
    destination: u8,
    source: u8,
    data: &[u8],
    out: &mut [u8],
) -> Result<usize> {
    same_layout();
    let mut count = 0;
    // SAFETY: pointers and lengths are of `data` and of `out`, which is lent alone; `count` is a local.
    let answer = unsafe {
        ffi::lefkanu_mstp_encode(
            rule as u8,
            frame_type as u8,
            destination,
            source,
            data.as_ptr(),
            data.len(),
            out.as_mut_ptr(),
            out.len(),
            &mut count,
        )
    };
    answered(answer, count)
}

pub(crate) fn bvlc_decode(message: &[u8]) -> Result<[usize; 2]> {
    same_layout();
    let mut header = [0; 2];
    // SAFETY: pointer and length are of `message`; `header` is a local of two numbers.
    let answer = unsafe { ffi::lefkanu_bvlc_decode(message.as_ptr(), message.len(), &mut header) };
    answered(answer, header)
}

pub(crate) fn bvlc_encode(function: BvlcFunction, length: u16, out: &mut [u8]) -> Result<usize> {
    same_layout();
    let mut count = 0;
    // SAFETY: pointer and length are of `out`, which is lent alone; `count` is a local.
    let answer = unsafe {
        ffi::lefkanu_bvlc_encode(
            function as u8,
            length,
            out.as_mut_ptr(),
            out.len(),
            &mut count,
        )
    };
    answered(answer, count)
}

pub(crate) fn process_bvlc_message(message: &[u8]) -> Result<Carried> {
    same_layout();
    let mut carried = [0; 3];
    // SAFETY: pointer and length are of `message`; `carried` is a local of three numbers.
    let answer =
        unsafe { ffi::lefkanu_process_bvlc_message(message.as_ptr(), message.len(), &mut carried) };
    let [what, first, second] = answered(answer, carried)?;
    Ok(match what {
        ffi::NPDU => Carried::Npdu {
            place: first,
            count: second,
        },
        ffi::TIME_TO_LIVE => Carried::TimeToLive(first as u16),
        ffi::NO_NPDU => Carried::NoNpdu,
        _ => unreachable!("a message carries an NPDU, a time to live or none of them"),
    })
}

pub(crate) fn ethernet_decode(frame: &[u8]) -> Result<([u8; 6], [u8; 6], [usize; 2])> {
    same_layout();
    let (mut dest_mac, mut src_mac, mut payload) = ([0; 6], [0; 6], [0; 2]);
    // SAFETY: pointer and length are of `frame`; the others are three locals of six, six and two.
    let answer = unsafe {
        ffi::lefkanu_ethernet_decode(
            frame.as_ptr(),
            frame.len(),
            &mut dest_mac,
            &mut src_mac,
            &mut payload,
        )
    };
    answered(answer, (dest_mac, src_mac, payload))
}

pub(crate) fn ethernet_decode_form(
    form: EthernetForm,
    frame: &[u8],
) -> Result<([u8; 6], [u8; 6], [usize; 2])> {
    same_layout();
    let (mut dest_mac, mut src_mac, mut payload) = ([0; 6], [0; 6], [0; 2]);
    // SAFETY: pointer and length are of `frame`; the others are three locals of six, six and two.
    let answer = unsafe {
        ffi::lefkanu_ethernet_decode_form(
            form as u8,
            frame.as_ptr(),
            frame.len(),
            &mut dest_mac,
            &mut src_mac,
            &mut payload,
        )
    };
    answered(answer, (dest_mac, src_mac, payload))
}

pub(crate) fn ethernet_validate(frame: &[u8]) -> Result<()> {
    same_layout();
    // SAFETY: pointer and length are of `frame`.
    let answer = unsafe { ffi::lefkanu_ethernet_validate(frame.as_ptr(), frame.len()) };
    answered(answer, ())
}

pub(crate) fn ethernet_encode(
    dest_mac: &[u8; 6],
    src_mac: &[u8; 6],
    payload: &[u8],
    out: &mut [u8],
) -> Result<usize> {
    same_layout();
    let mut count = 0;
    // SAFETY: the addresses have six octets; pointers and lengths are of `payload` and of `out`, which is lent alone;
    // `count` is a local.
    let answer = unsafe {
        ffi::lefkanu_ethernet_encode(
            dest_mac,
            src_mac,
            payload.as_ptr(),
            payload.len(),
            out.as_mut_ptr(),
            out.len(),
            &mut count,
        )
    };
    answered(answer, count)
}

pub(crate) fn ethernet_encode_form(
    form: EthernetForm,
    dest_mac: &[u8; 6],
    src_mac: &[u8; 6],
    payload: &[u8],
    out: &mut [u8],
) -> Result<usize> {
    same_layout();
    let mut count = 0;
    // SAFETY: the addresses have six octets; pointers and lengths are of `payload` and of `out`, which is lent alone;
    // `count` is a local.
    let answer = unsafe {
        ffi::lefkanu_ethernet_encode_form(
            form as u8,
            dest_mac,
            src_mac,
            payload.as_ptr(),
            payload.len(),
            out.as_mut_ptr(),
            out.len(),
            &mut count,
        )
    };
    answered(answer, count)
}

pub(crate) fn validate_mstp_frame(rule: CheckRule, frame: &[u8]) -> Findings {
    same_layout();
    let mut result = [0; ffi::RESULT_NUMBERS];
    // SAFETY: pointer and length are of `frame`; `result` is a local of the size declared.
    let answer = unsafe {
        ffi::lefkanu_validate_mstp_frame(rule as u8, frame.as_ptr(), frame.len(), &mut result)
    };
    given(answer, result)
}

pub(crate) fn validate_bacnet_ip_frame(message: &[u8]) -> Findings {
    same_layout();
    let mut result = [0; ffi::RESULT_NUMBERS];
    // SAFETY: pointer and length are of `message`; `result` is a local of the size declared.
    unsafe { ffi::lefkanu_validate_bacnet_ip_frame(message.as_ptr(), message.len(), &mut result) };
    result
}

pub(crate) fn validate_ethernet_frame(frame: &[u8]) -> Findings {
    same_layout();
    let mut result = [0; ffi::RESULT_NUMBERS];
    // SAFETY: pointer and length are of `frame`; `result` is a local of the size declared.
    unsafe { ffi::lefkanu_validate_ethernet_frame(frame.as_ptr(), frame.len(), &mut result) };
    result
}

pub(crate) fn validate_frame(rule: CheckRule, frame: &[u8]) -> Findings {
    same_layout();
    let mut result = [0; ffi::RESULT_NUMBERS];
    // SAFETY: pointer and length are of `frame`; `result` is a local of the size declared.
    let answer = unsafe {
        ffi::lefkanu_validate_frame(rule as u8, frame.as_ptr(), frame.len(), &mut result)
    };
    given(answer, result)
}

pub(crate) fn calculate_frame_statistics(frame: &[u8]) -> Result<Counts> {
    same_layout();
    let (mut byte_distribution, mut counts) = ([0; 256], [0; ffi::COUNT_NUMBERS]);
    // SAFETY: pointer and length are of `frame`; the others are two locals of the sizes declared.
    let answer = unsafe {
        ffi::lefkanu_calculate_frame_statistics(
            frame.as_ptr(),
            frame.len(),
            &mut byte_distribution,
            &mut counts,
        )
    };
    answered(
        answer,
        Counts {
            byte_distribution,
            counts,
        },
    )
}

pub(crate) fn detect_patterns(frame: &[u8], out: &mut [u32]) -> Result<usize> {
    same_layout();
    let mut count = 0;
    // SAFETY: pointers and lengths are of `frame` and of `out`, which is lent alone; `count` is a local.
    let answer = unsafe {
        ffi::lefkanu_detect_patterns(
            frame.as_ptr(),
            frame.len(),
            out.as_mut_ptr(),
            out.len(),
            &mut count,
        )
    };
    answered(answer, count)
}

pub(crate) fn padding_step(mut state: PaddingNumbers, octet: u8) -> PaddingNumbers {
    same_layout();
    // SAFETY: `state` is a local of the size declared.
    let answer = unsafe { ffi::lefkanu_padding_step(&mut state, octet) };
    given(answer, state)
}

pub(crate) fn padding_length(state: PaddingNumbers) -> usize {
    same_layout();
    let mut length = 0;
    // SAFETY: `state` and `length` are two locals, the first of the size declared.
    let answer = unsafe { ffi::lefkanu_padding_length(&state, &mut length) };
    given(answer, length)
}

pub(crate) fn analyze_frame(
    rule: CheckRule,
    frame: &[u8],
    out: &mut [u32],
) -> Result<(Findings, Counts, usize)> {
    same_layout();
    let (mut result, mut byte_distribution) = ([0; ffi::RESULT_NUMBERS], [0; 256]);
    let (mut counts, mut count) = ([0; ffi::COUNT_NUMBERS], 0);
    // SAFETY: pointers and lengths are of `frame` and of `out`, which is lent alone; the others are four locals of the
    // sizes declared.
    let answer = unsafe {
        ffi::lefkanu_analyze_frame(
            rule as u8,
            frame.as_ptr(),
            frame.len(),
            &mut result,
            &mut byte_distribution,
            &mut counts,
            out.as_mut_ptr(),
            out.len(),
            &mut count,
        )
    };
    let counts = Counts {
        byte_distribution,
        counts,
    };
    answered(answer, (result, counts, count))
}

pub(crate) fn find_frame(rule: CheckRule, run: &[u8], place: usize) -> Result<Option<[usize; 2]>> {
    same_layout();
    let mut report = [0; 2];
    // SAFETY: pointer and length are of `run`; `report` is a local of two numbers.
    let answer =
        unsafe { ffi::lefkanu_find_frame(rule as u8, run.as_ptr(), run.len(), place, &mut report) };
    found(answer, report)
}

pub(crate) fn count_frames(rule: CheckRule, run: &[u8]) -> Result<usize> {
    same_layout();
    let mut count = 0;
    // SAFETY: pointer and length are of `run`; `count` is a local.
    let answer =
        unsafe { ffi::lefkanu_count_frames(rule as u8, run.as_ptr(), run.len(), &mut count) };
    answered(answer, count)
}

pub(crate) fn read_frames(rule: CheckRule, run: &[u8], out: &mut [u32]) -> Result<usize> {
    same_layout();
    let mut count = 0;
    // SAFETY: pointers and lengths are of `run` and of `out`, which is lent alone; `count` is a local.
    let answer = unsafe {
        ffi::lefkanu_read_frames(
            rule as u8,
            run.as_ptr(),
            run.len(),
            out.as_mut_ptr(),
            out.len(),
            &mut count,
        )
    };
    answered(answer, count)
}

pub(crate) fn read_record(log: &[u8], end: usize) -> Result<Option<RecordNumbers>> {
    same_layout();
    let mut record = [0; ffi::RECORD_NUMBERS];
    // SAFETY: pointer and length are of `log`; `record` is a local of the size declared.
    let answer = unsafe { ffi::lefkanu_read_record(log.as_ptr(), log.len(), end, &mut record) };
    found(answer, record)
}

pub(crate) fn append(
    buffer: &mut [u8],
    used: usize,
    kind: RecordKind,
    time: Option<u32>,
    payload: &[u8],
) -> Result<usize> {
    same_layout();
    let (timed, second) = match time {
        Some(second) => (ffi::SECOND, second),
        None => (ffi::NO_TIME, 0),
    };
    let mut new_used = 0;
    // SAFETY: pointers and lengths are of `payload` and of `buffer`, which is lent alone; `new_used` is a local.
    let answer = unsafe {
        ffi::lefkanu_append(
            buffer.as_mut_ptr(),
            buffer.len(),
            used,
            kind as u8,
            timed,
            second,
            payload.as_ptr(),
            payload.len(),
            &mut new_used,
        )
    };
    answered(answer, new_used)
}
