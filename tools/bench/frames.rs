// The frames and messages that are measured. They are never given back, so that every call of a row
// may borrow them.

use ffi::lefkanu_mstp_encode;
use shared::model::{bvlc, ethernet, mstp};
use shared::random::Random;
use shared::rust::checks::House;

use crate::rules::ANNEX_G;

pub type Octets = &'static [u8];

// The addresses in Ethernet frames.
pub const MACS: ethernet::Addresses = [[0xFF; 6], [0x00, 0x11, 0x22, 0x33, 0x44, 0x55]];

// Random octets.
pub fn octets(count: usize) -> Octets {
    Random::new().octets_without_ff(count).leak()
}

// The octets with another one at each of some places.
pub fn with(octets: Octets, changes: &[(usize, u8)]) -> Octets {
    let mut changed = octets.to_vec();
    for (place, octet) in changes {
        changed[*place] = *octet;
    }
    changed.leak()
}

// The octets with the last one changed.
pub fn broken(octets: Octets) -> Octets {
    let last = octets.len() - 1;
    with(octets, &[(last, octets[last] ^ 0x10)])
}

// The MS/TP frame with another header check.
pub fn header_broken(frame: Octets) -> Octets {
    with(frame, &[(7, frame[7] ^ 0x01)])
}

// An MS/TP frame of so many octets, 8 or more than 10, under the house rule. Above 511 none is
// written, but the reader takes them.
pub fn mstp(size: usize) -> Octets {
    mstp_to(16, size)
}

// The same from a master to a slave.
pub fn to_slave(size: usize) -> Octets {
    mstp_to(200, size)
}

fn mstp_to(destination: u8, size: usize) -> Octets {
    let data = octets(size.saturating_sub(10));
    let kind = if data.is_empty() { 0 } else { 6 };
    mstp::written(House, [kind, destination, 5], data).leak()
}

// An MS/TP frame with the checks of Annex G, which the library works out: the model has none here.
pub fn under_annex_g(frame: Octets) -> Octets {
    let [_, _, kind, to, from, high, low, ..] = frame else {
        panic!("no header: {frame:02X?}");
    };
    let data = &frame[8..][..usize::from(u16::from_be_bytes([*high, *low]))];
    let mut written = vec![0; frame.len()];
    let (out, room) = (written.as_mut_ptr(), written.len());
    let (octets, length) = (data.as_ptr(), data.len());
    let mut count = 0;
    let answer = unsafe {
        lefkanu_mstp_encode(
            ANNEX_G, *kind, *to, *from, octets, length, out, room, &mut count,
        )
    };
    assert_eq!((answer, count), (0, frame.len()), "MS/TP write");
    written.leak()
}

// An MS/TP frame of so many octets whose type, source and checks are wrong.
pub fn bad_mstp(size: usize) -> Octets {
    with(header_broken(broken(mstp(size))), &[(2, 0x20), (4, 0xFF)])
}

// A BVLC message of so many octets that carries an NPDU.
pub fn bvlc(size: usize) -> Octets {
    bvlc::message(0x0A, &octets(size)[4..]).leak()
}

// A BVLC message of so many octets whose type, function and length are wrong.
pub fn bad_bvlc(size: usize) -> Octets {
    let message = broken(bvlc(size));
    with(message, &[(0, 0x82), (1, 0x20), (3, message[3] ^ 0x10)])
}

// An Ethernet frame of so many octets, 17 or more, without padding.
pub fn ethernet(size: usize) -> Octets {
    let payload = octets(size - ethernet::BEFORE);
    ethernet::unpadded(ethernet::Form::EtherType, MACS, payload).leak()
}

// An Ethernet frame of so many octets with another type and LLC header, to a multicast address.
pub fn bad_ethernet(size: usize) -> Octets {
    with(ethernet(size), &[(0, 0x01), (12, 0x08), (14, 0xAA)])
}
