// The rows of the validators. The Rust makes lists of what it finds, and tells some of it in English.

use std::hint::black_box;

use bacnet::datalink::validation::{
    validate_bacnet_ip_frame, validate_ethernet_frame, validate_frame, validate_mstp_frame,
    ValidationResult,
};
use ffi::{
    lefkanu_validate_bacnet_ip_frame, lefkanu_validate_ethernet_frame, lefkanu_validate_frame,
    lefkanu_validate_mstp_frame, RESULT_NUMBERS,
};
use shared::model::findings::{Findings, Link};
use shared::rust::findings::told;

use crate::frames::{
    bad_bvlc, bad_ethernet, bad_mstp, broken, bvlc, ethernet, header_broken, mstp, to_slave,
    under_annex_g, with, Octets,
};
use crate::row::{lent, now, sizes_to, Row, SIZES};
use crate::rules::{ANNEX_G, HOUSE};

// A validator of each side.
type Theirs = fn(&[u8]) -> ValidationResult;
type Ruled = unsafe extern "C" fn(u8, *const u8, usize, *mut [usize; RESULT_NUMBERS]) -> u8;
type Plain = unsafe extern "C" fn(*const u8, usize, *mut [usize; RESULT_NUMBERS]);

// The most octets of an MS/TP frame, of a BACnet/IP message and of an Ethernet frame.
const MSTP_MOST: usize = 511;
const IP_MOST: usize = 1_497;
const ETHERNET_MOST: usize = 1_514;

// The least octets of an Ethernet frame's header, and what a short frame is padded to.
const ETHERNET_LEAST: usize = 17;
const ETHERNET_PADDED: usize = 60;

// Some rows, a line for each name: what makes a row, its sizes, and what makes a frame of a size.
macro_rules! rows {
    ($($name:literal, $row:ident, $sizes:expr, $frame:expr;)*) => {{
        let mut rows: Vec<Row> = Vec::new();
        $(
            let frame: fn(usize) -> Octets = $frame;
            rows.extend($sizes.into_iter().map(|size| $row($name, frame(size))));
        )*
        rows
    }};
}

pub fn rows() -> Vec<Row> {
    let short = || sizes_to(MSTP_MOST);
    let long = || sizes_to(ETHERNET_MOST);
    rows! {
        "validate MS/TP", mstp_row, short(), mstp;
        "validate MS/TP, errors", mstp_row, SIZES, |size| with(bad_mstp(size), &[(0, 0x56)]);
        "validate MS/TP, header check wrong", mstp_row, short(), |size| header_broken(mstp(size));
        "validate MS/TP, data check wrong", mstp_row, short().skip(1), |size| broken(mstp(size));
        "validate MS/TP, to a slave", mstp_row, short(), to_slave;
        "validate MS/TP, data to a slave, Annex G rule", annex_g_row, short().skip(1), to_slave;
        "validate IP", ip_row, long(), |size| bvlc(size.min(IP_MOST));
        "validate IP, errors", ip_row, SIZES, bad_bvlc;
        "validate IP, secure BVLL", ip_row, [8], |size| with(bvlc(size), &[(1, 0x0C)]);
        "validate Ethernet", ethernet_row, long(), |size| ethernet(size.max(ETHERNET_LEAST));
        "validate Ethernet, errors", ethernet_row, SIZES, |size| bad_ethernet(size.max(ETHERNET_LEAST));
        "validate Ethernet, padded to 60", ethernet_row, [ETHERNET_PADDED], ethernet;
        "validate any link", frame_row, short(), mstp;
        "validate any link, errors", frame_row, SIZES, bad_mstp;
        "validate any link, header check wrong", frame_row, [8], |size| header_broken(mstp(size));
        "validate any link, padded to 60", frame_row, [ETHERNET_PADDED], ethernet;
    }
}

fn mstp_row(name: &'static str, frame: Octets) -> Row {
    let (ours, theirs) = (lefkanu_validate_mstp_frame, validate_mstp_frame);
    ruled(name, frame, ours, theirs)
}

// A row of the MS/TP validator under Annex G, which the Rust doesn't have: a frame without findings.
fn annex_g_row(name: &'static str, frame: Octets) -> Row {
    let frame = under_annex_g(frame);
    let ours = black_box(lefkanu_validate_mstp_frame as Ruled);
    let result = lent([0; RESULT_NUMBERS]);
    let call = move || unsafe { ours(ANNEX_G, frame.as_ptr(), frame.len(), result) };
    assert_eq!(call(), 0, "{name}");
    let clean = Findings {
        valid: true,
        link: Link::Mstp,
        size: frame.len(),
        ..Findings::default()
    };
    assert_eq!(now(result), clean.numbers(), "{name}");
    Row::alone(name, frame.len(), call)
}

fn ip_row(name: &'static str, frame: Octets) -> Row {
    let (ours, theirs) = (lefkanu_validate_bacnet_ip_frame, validate_bacnet_ip_frame);
    plain(name, frame, ours, theirs)
}

fn ethernet_row(name: &'static str, frame: Octets) -> Row {
    let (ours, theirs) = (lefkanu_validate_ethernet_frame, validate_ethernet_frame);
    plain(name, frame, ours, theirs)
}

fn frame_row(name: &'static str, frame: Octets) -> Row {
    ruled(name, frame, lefkanu_validate_frame, validate_frame)
}

// A row of a validator that takes a rule.
fn ruled(name: &'static str, frame: Octets, ours: Ruled, theirs: Theirs) -> Row {
    let (ours, theirs) = black_box((ours, theirs));
    let result = lent([0; RESULT_NUMBERS]);
    let ours = move || unsafe { ours(HOUSE, frame.as_ptr(), frame.len(), result) };
    assert_eq!(ours(), 0, "{name}");
    assert_eq!(now(result), told(&theirs(frame)).numbers(), "{name}");
    Row::both(name, frame.len(), ours, move || theirs(frame))
}

// A row of a validator that takes none.
fn plain(name: &'static str, frame: Octets, ours: Plain, theirs: Theirs) -> Row {
    let (ours, theirs) = black_box((ours, theirs));
    let result = lent([0; RESULT_NUMBERS]);
    let ours = move || unsafe { ours(frame.as_ptr(), frame.len(), result) };
    ours();
    assert_eq!(now(result), told(&theirs(frame)).numbers(), "{name}");
    Row::both(name, frame.len(), ours, move || theirs(frame))
}
