// The rows of Ethernet frames. The Rust copies the payload out of a frame that it reads, and gives
// what it writes as a new list. It has no form Length.

use std::cell::Cell;

use bacnet::datalink::ethernet::{
    validate_ethernet_frame, EthernetFrame, BACNET_ETHERNET_HEADER_SIZE, MAX_ETHERNET_FRAME_SIZE,
    MIN_ETHERNET_FRAME_SIZE,
};
use ffi::{
    lefkanu_ethernet_decode, lefkanu_ethernet_decode_form, lefkanu_ethernet_encode,
    lefkanu_ethernet_encode_form, lefkanu_ethernet_validate,
};
use shared::model::ethernet::{written, Form, BEFORE};

use crate::frames::{ethernet, octets, Octets, MACS};
use crate::row::{front, lent, lent_list, now, pointer, sizes_to, Row, SIZES};

// The number of form Length.
const LENGTH: u8 = 1;

pub fn rows() -> Vec<Row> {
    let most = MAX_ETHERNET_FRAME_SIZE;
    let mut rows = Vec::from(SIZES.map(|size| read(size.max(BACNET_ETHERNET_HEADER_SIZE))));
    rows.extend(sizes_to(most).map(|size| validate(size.max(BACNET_ETHERNET_HEADER_SIZE))));
    rows.extend(sizes_to(most).map(write));
    rows.extend(sizes_to(most).map(read_length));
    rows.extend(sizes_to(most).map(write_length));
    rows
}

fn read(size: usize) -> Row {
    let frame = ethernet(size);
    let ours = pointer!(lefkanu_ethernet_decode as unsafe extern "C" fn(_, _, _, _, _) -> _);
    let theirs = pointer!(EthernetFrame::decode as fn(&_) -> _);
    let (to, from, payload) = (lent([0; 6]), lent([0; 6]), lent([0; 2]));
    let ours = move || unsafe { ours(frame.as_ptr(), frame.len(), to, from, payload) };
    let read: EthernetFrame = theirs(frame).expect("a frame");
    assert_eq!(ours(), 0, "Ethernet read");
    let addresses = [read.dest_mac, read.src_mac];
    assert_eq!([now(to), now(from)], addresses, "addresses");
    let [start, count] = now(payload);
    assert_eq!(frame[start..][..count], read.payload, "payload");
    Row::both("Ethernet read", size, ours, move || theirs(frame))
}

fn validate(size: usize) -> Row {
    let frame = ethernet(size);
    let ours = pointer!(lefkanu_ethernet_validate as unsafe extern "C" fn(_, _) -> _);
    let theirs = pointer!(validate_ethernet_frame as fn(&_) -> _);
    let ours = move || -> u8 { unsafe { ours(frame.as_ptr(), frame.len()) } };
    assert!(ours() == 0 && theirs(frame).is_ok(), "Ethernet validate");
    Row::both("Ethernet validate", size, ours, move || theirs(frame))
}

// The payload of a frame that is written. The least size is that of a frame of eight octets of payload
// and padding.
fn payload(size: usize) -> Octets {
    octets(size.saturating_sub(BACNET_ETHERNET_HEADER_SIZE).max(8))
}

fn write(size: usize) -> Row {
    let payload = payload(size);
    let size = size.max(MIN_ETHERNET_FRAME_SIZE);
    let ours = pointer!(lefkanu_ethernet_encode as unsafe extern "C" fn(_, _, _, _, _, _, _) -> _);
    let (out, count) = (lent_list(0, MAX_ETHERNET_FRAME_SIZE), lent(0));
    let ours = move || unsafe {
        let (octets, length, out) = (payload.as_ptr(), payload.len(), &mut *out);
        let (list, room) = (out.as_mut_ptr(), out.len());
        ours(&MACS[0], &MACS[1], octets, length, list, room, count)
    };
    let new = pointer!(EthernetFrame::new as fn(_, _, _) -> _);
    let encode = pointer!(EthernetFrame::encode as fn(&_) -> _);
    // The list that the Rust takes goes from call to call.
    let list = Cell::new(payload.to_vec());
    let theirs = move || {
        let new: EthernetFrame = new(MACS[0], MACS[1], list.take());
        let octets: Vec<u8> = encode(&new);
        list.set(new.payload);
        octets
    };
    assert_eq!((ours(), now(count)), (0, size), "Ethernet write");
    assert_eq!(front(out, size), theirs(), "Ethernet write");
    Row::both("Ethernet write", size, ours, theirs)
}

fn read_length(size: usize) -> Row {
    let payload = payload(size);
    let frame: Octets = written(Form::Length, MACS, payload).leak();
    let ours =
        pointer!(lefkanu_ethernet_decode_form as unsafe extern "C" fn(_, _, _, _, _, _) -> _);
    let (to, from, part) = (lent([0; 6]), lent([0; 6]), lent([0; 2]));
    let ours = move || unsafe { ours(LENGTH, frame.as_ptr(), frame.len(), to, from, part) };
    assert_eq!(ours(), 0, "Ethernet read, length");
    assert_eq!([now(to), now(from)], MACS, "addresses");
    assert_eq!(now(part), [BEFORE, payload.len()], "payload");
    Row::alone("Ethernet read, length", frame.len(), ours)
}

fn write_length(size: usize) -> Row {
    let payload = payload(size);
    let frame = written(Form::Length, MACS, payload);
    let ours =
        pointer!(lefkanu_ethernet_encode_form as unsafe extern "C" fn(_, _, _, _, _, _, _, _) -> _);
    let (out, count) = (lent_list(0, MAX_ETHERNET_FRAME_SIZE), lent(0));
    let ours = move || unsafe {
        let (octets, length, out) = (payload.as_ptr(), payload.len(), &mut *out);
        let (list, room) = (out.as_mut_ptr(), out.len());
        ours(
            LENGTH, &MACS[0], &MACS[1], octets, length, list, room, count,
        )
    };
    let size = frame.len();
    assert_eq!((ours(), now(count)), (0, size), "Ethernet write, length");
    assert_eq!(front(out, size), frame, "Ethernet write, length");
    Row::alone("Ethernet write, length", size, ours)
}
