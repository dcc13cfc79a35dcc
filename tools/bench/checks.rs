// The rows of the check octets, those under the Annex G rule among them, which the Rust doesn't have.

use std::hint::black_box;

use bacnet::datalink::mstp::opened_header_crc;
use bacnet::util::crc16_mstp;
use ffi::{lefkanu_calculate_header_crc, lefkanu_crc16_mstp};

use crate::frames::{octets, Octets};
use crate::row::{lent, now, pointer, Row, SIZES};
use crate::rules::{ANNEX_G, HOUSE};

// A header of a token, and its checks under the two rules.
const HEADER: [u8; 5] = [0x00, 0x10, 0x05, 0x00, 0x00];
const HEADER_ANNEX_G: u8 = 0x8C;
const HEADER_HOUSE: u8 = 0x9A;

pub fn rows() -> Vec<Row> {
    let mut rows = vec![header(), header_chain()];
    rows.extend(SIZES.map(data));
    let ours = header_call(ANNEX_G, HEADER_ANNEX_G);
    rows.push(Row::alone("header check, Annex G rule", HEADER.len(), ours));
    rows.extend(SIZES.map(data_annex_g));
    rows
}

// The header check under a rule, which must come out.
fn header_call(rule: u8, check: u8) -> impl Fn() -> u8 {
    let ours = pointer!(lefkanu_calculate_header_crc as unsafe extern "C" fn(_, _, _) -> _);
    let crc = lent(0);
    let call = move || unsafe { ours(rule, &HEADER, crc) };
    assert_eq!((call(), now(crc)), (0, check), "header check");
    call
}

fn header() -> Row {
    let theirs = pointer!(opened_header_crc as fn(&_) -> _);
    assert_eq!(theirs(&HEADER), HEADER_HOUSE, "the Rust's header check");
    let ours = header_call(HOUSE, HEADER_HOUSE);
    Row::both("header check", HEADER.len(), ours, move || theirs(&HEADER))
}

// The header check of headers whose first octet is the last check, so that no call can begin before
// the last one's answer is there.
fn header_chain() -> Row {
    let ours = pointer!(lefkanu_calculate_header_crc as unsafe extern "C" fn(_, _, _) -> _);
    let theirs = pointer!(opened_header_crc as fn(&_) -> _);
    let [header, other] = [lent(HEADER), lent(HEADER)];
    let crc = lent(0);
    let ours = move || unsafe {
        let answer: u8 = ours(HOUSE, header, crc);
        (*header)[0] = *crc;
        answer
    };
    let theirs = move || unsafe { (*other)[0] = theirs(&*other) };
    for _ in 0..10 {
        assert_eq!(ours(), 0, "header check");
        theirs();
        assert_eq!(now(header), now(other), "header check");
    }
    Row::both("header check, each of the last", HEADER.len(), ours, theirs)
}

// The data check under a rule, and where it is put.
fn data_call(rule: u8, data: Octets) -> (impl Fn() -> u8, *mut u16) {
    let ours = black_box(lefkanu_crc16_mstp as unsafe extern "C" fn(_, _, _, _) -> _);
    let crc = lent(0);
    let call = move || unsafe { ours(rule, data.as_ptr(), data.len(), crc) };
    assert_eq!(call(), 0, "data check");
    (call, crc)
}

fn data(size: usize) -> Row {
    let data = octets(size);
    let theirs = black_box(crc16_mstp as fn(&_) -> _);
    let (ours, crc) = data_call(HOUSE, data);
    assert_eq!(now(crc), theirs(data), "data check");
    Row::both("data check", size, ours, move || theirs(data))
}

fn data_annex_g(size: usize) -> Row {
    let (ours, _) = data_call(ANNEX_G, octets(size));
    Row::alone("data check, Annex G rule", size, ours)
}
