// The rows of MS/TP frames. The Rust copies the data out of a frame that it reads, and gives what it
// writes as a new list.

use std::cell::Cell;

use bacnet::datalink::mstp::{MstpFrame, MstpFrameType, MSTP_MAX_FRAME_SIZE};
use bacnet::datalink::{DataLinkError, Result};
use ffi::{lefkanu_mstp_decode, lefkanu_mstp_encode};
use shared::rust::mstp::told;

use crate::frames::{broken, mstp, Octets};
use crate::row::{front, lent, lent_list, now, pointer, sizes_to, Row, SIZES};
use crate::rules::HOUSE;

// The question of the data check.
const DATA_CHECK: u8 = 6;

pub fn rows() -> Vec<Row> {
    let bad = SIZES.into_iter().filter(|size| *size > 8);
    let good = SIZES.map(|size| read("MS/TP read", mstp(size)));
    let mut rows = Vec::from(good);
    rows.extend(bad.map(|size| read("MS/TP read, data check wrong", broken(mstp(size)))));
    rows.extend(sizes_to(MSTP_MAX_FRAME_SIZE).map(write));
    rows
}

fn read(name: &'static str, frame: Octets) -> Row {
    let ours = pointer!(lefkanu_mstp_decode as unsafe extern "C" fn(_, _, _, _) -> _);
    let theirs = pointer!(MstpFrame::decode as fn(&_) -> _);
    let header = lent([0; 8]);
    let ours = move || unsafe { ours(HOUSE, frame.as_ptr(), frame.len(), header) };
    compare(frame, ours(), now(header), theirs(frame));
    Row::both(name, frame.len(), ours, move || theirs(frame))
}

// Panics unless both sides read the same.
fn compare(frame: Octets, answer: u8, header: [usize; 8], theirs: Result<MstpFrame>) {
    match theirs {
        Ok(theirs) => {
            let told = told(frame, &theirs).numbers();
            assert_eq!((answer, header), (0, told), "MS/TP read");
        }
        Err(DataLinkError::CrcError) => assert_eq!(answer, DATA_CHECK, "MS/TP read"),
        Err(error) => panic!("the Rust refuses a frame: {error:?}"),
    }
}

fn write(size: usize) -> Row {
    let frame = mstp(size);
    let data = &frame[8..][..size.saturating_sub(10)];
    let kind = MstpFrameType::from_u8(frame[2]).expect("a type");
    let (out, count) = (lent_list(0, MSTP_MAX_FRAME_SIZE), lent(0));
    let ours =
        pointer!(lefkanu_mstp_encode as unsafe extern "C" fn(_, _, _, _, _, _, _, _, _) -> _);
    let ours = move || unsafe {
        let (to, from, out) = (frame[3], frame[4], &mut *out);
        let (octets, length) = (data.as_ptr(), data.len());
        let (list, room) = (out.as_mut_ptr(), out.len());
        ours(
            HOUSE, kind as u8, to, from, octets, length, list, room, count,
        )
    };
    let new = pointer!(MstpFrame::new as fn(_, _, _, _) -> _);
    let encode = pointer!(MstpFrame::encode as fn(&_) -> _);
    // The list that the Rust takes goes from call to call.
    let list = Cell::new(data.to_vec());
    let theirs = move || {
        let new: MstpFrame = new(kind, frame[3], frame[4], list.take()).expect("a frame");
        let octets: Vec<u8> = encode(&new);
        list.set(new.data);
        octets
    };
    assert_eq!((ours(), now(count)), (0, size), "MS/TP write");
    assert_eq!((&*front(out, size), &*theirs()), (frame, frame), "written");
    Row::both("MS/TP write", size, ours, theirs)
}
