// The rows of BVLC messages. The Rust copies the NPDU out of a message, and gives a header that it
// writes as a new list.

use std::cell::RefCell;
use std::net::{Ipv4Addr, SocketAddr};

use bacnet::datalink::bip::{opened_process, BacnetIpDataLink, BvlcFunction, BvlcHeader};
use ffi::{lefkanu_bvlc_decode, lefkanu_bvlc_encode, lefkanu_process_bvlc_message, NPDU};

use crate::frames::bvlc;
use crate::row::{front, lent, lent_list, now, pointer, Row, SIZES};

// Octets of a header.
const HEADER: usize = 4;

pub fn rows() -> Vec<Row> {
    let mut rows = vec![read(), write()];
    rows.extend(SIZES.map(npdu));
    rows
}

fn read() -> Row {
    let message = bvlc(HEADER);
    let ours = pointer!(lefkanu_bvlc_decode as unsafe extern "C" fn(_, _, _) -> _);
    let theirs = pointer!(BvlcHeader::decode as fn(&_) -> _);
    let header = lent([0; 2]);
    let ours = move || unsafe { ours(message.as_ptr(), message.len(), header) };
    let read: BvlcHeader = theirs(message).expect("a header");
    let told = [read.function as usize, read.length.into()];
    assert_eq!((ours(), now(header)), (0, told), "BVLC header read");
    Row::both("BVLC header read", HEADER, ours, move || theirs(message))
}

fn write() -> Row {
    let function = BvlcFunction::OriginalUnicastNpdu;
    let ours = pointer!(lefkanu_bvlc_encode as unsafe extern "C" fn(_, _, _, _, _) -> _);
    let new = pointer!(BvlcHeader::new as fn(_, _) -> _);
    let encode = pointer!(BvlcHeader::encode as fn(&_) -> _);
    let (out, count) = (lent_list(0, HEADER), lent(0));
    let ours = move || unsafe {
        let out = &mut *out;
        ours(function as u8, 100, out.as_mut_ptr(), out.len(), count)
    };
    let theirs = move || -> Vec<u8> { encode(&new(function, 100)) };
    assert_eq!((ours(), now(count)), (0, HEADER), "BVLC header write");
    assert_eq!(front(out, HEADER), theirs(), "BVLC header write");
    Row::both("BVLC header write", HEADER, ours, theirs)
}

fn npdu(size: usize) -> Row {
    let message = bvlc(size);
    let ours = pointer!(lefkanu_process_bvlc_message as unsafe extern "C" fn(_, _, _) -> _);
    let theirs = pointer!(opened_process as fn(&mut _, &_, _) -> _);
    let carried = lent([0; 3]);
    let ours = move || unsafe { ours(message.as_ptr(), message.len(), carried) };
    let here = SocketAddr::from((Ipv4Addr::LOCALHOST, 0));
    let link = RefCell::new(BacnetIpDataLink::new(here).expect("a socket"));
    let theirs = move || theirs(&mut link.borrow_mut(), message, here);
    let (npdu, _) = theirs();
    let npdu: Vec<u8> = npdu.expect("a message").expect("an NPDU");
    let told = [NPDU, HEADER, npdu.len()];
    assert_eq!((ours(), now(carried)), (0, told), "NPDU");
    assert_eq!(message[HEADER..], npdu, "NPDU");
    Row::both("NPDU", size, ours, theirs)
}
