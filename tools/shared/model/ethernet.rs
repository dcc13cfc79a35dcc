// Ethernet frames in two forms: questions 21 to 25, 61 and 62.

use crate::octets::{number, of_size};

// What stands in octets 12 to 16 in form EtherType; how many octets stand before the payload, and
// before what a length counts.
pub const FIXED: [u8; 5] = [0x82, 0xDC, 0x82, 0x82, 0x03];
pub const BEFORE: usize = 17;
pub const BEFORE_LLC: usize = 14;

// The sizes of the smallest and of the largest frame written.
pub const LEAST: usize = 60;
pub const MOST: usize = 1514;

// The least and the most that a length counts: the LLC octets alone, and with the longest payload.
const LEAST_LENGTH: usize = 3;
const MOST_LENGTH: usize = 1500;

// What octets 12 and 13 have.
#[derive(Clone, Copy, Debug, PartialEq)]
pub enum Form {
    // 82 DC, as in the Rust.
    EtherType,
    // The count of LLC and payload octets, the high octet first, as in clause 7.
    Length,
}

// Destination and source.
pub type Addresses = [[u8; 6]; 2];

// What is read of a frame. The payload is a part of its octets.
#[derive(Clone, Debug, PartialEq)]
pub struct Frame<'a> {
    pub addresses: Addresses,
    pub payload: &'a [u8],
}

// Form EtherType: questions 21 to 23, with 24 behind the first under a limit on the count of octets.
fn ask(octets: &[u8], most: usize) -> Result<(), u8> {
    if octets.len() < BEFORE {
        return Err(21);
    }
    if octets.len() > most {
        return Err(24);
    }
    if octets[12..14] != FIXED[..2] {
        return Err(22);
    }
    if octets[14..17] != FIXED[2..] {
        return Err(23);
    }
    Ok(())
}

// Form Length: questions 21, 24, 61, 62 and 23, and then what the length counts.
fn counted(octets: &[u8]) -> Result<&[u8], u8> {
    if octets.len() < BEFORE {
        return Err(21);
    }
    if octets.len() > MOST {
        return Err(24);
    }
    let (head, behind) = octets.split_at(BEFORE_LLC);
    let length = number(&head[12..]);
    if !(LEAST_LENGTH..=MOST_LENGTH).contains(&length) {
        return Err(61);
    }
    let Some(counted) = behind.get(..length) else {
        return Err(62);
    };
    if !counted.starts_with(&FIXED[2..]) {
        return Err(23);
    }
    Ok(counted)
}

// What the octets hold.
pub fn read(form: Form, octets: &[u8]) -> Result<Frame<'_>, u8> {
    let behind = match form {
        Form::EtherType => {
            ask(octets, usize::MAX)?;
            &octets[BEFORE_LLC..]
        }
        Form::Length => counted(octets)?,
    };
    let address = |start| std::array::from_fn(|index| octets[start + index]);
    Ok(Frame {
        addresses: [0, 6].map(address),
        payload: &behind[BEFORE - BEFORE_LLC..],
    })
}

// The validator of the Rust's ethernet.rs.
pub fn validate(octets: &[u8]) -> Result<(), u8> {
    ask(octets, MOST)
}

// The frame, into so much room.
pub fn write(form: Form, addresses: Addresses, payload: &[u8], room: usize) -> Result<Vec<u8>, u8> {
    let size = size(payload.len());
    if size > MOST {
        return Err(24);
    }
    if size > room {
        return Err(25);
    }
    Ok(written(form, addresses, payload))
}

// How many octets the frame of a payload has.
pub fn size(payload: usize) -> usize {
    LEAST.max(BEFORE + payload)
}

// A frame, good but where it is too large.
pub fn written(form: Form, addresses: Addresses, payload: &[u8]) -> Vec<u8> {
    of_size(&unpadded(form, addresses, payload), size(payload.len()))
}

// The same without the zeros at its end.
pub fn unpadded(form: Form, addresses: Addresses, payload: &[u8]) -> Vec<u8> {
    let mut fixed = FIXED;
    if form == Form::Length {
        let length = u16::try_from(LEAST_LENGTH + payload.len()).expect("a length of two octets");
        fixed[..2].copy_from_slice(&length.to_be_bytes());
    }
    [&addresses.concat(), &fixed[..], payload].concat()
}

// The frame with another number in octets 12 and 13.
pub fn with_field(frame: &[u8], field: u16) -> Vec<u8> {
    let mut changed = frame.to_vec();
    changed[12..14].copy_from_slice(&field.to_be_bytes());
    changed
}
