// BVLC messages: questions 11 to 16.

use crate::octets::{number, then};

// The functions are 00 to 0C.
pub const LAST_FUNCTION: u8 = 0x0C;

// A header, behind its type 81.
#[derive(Clone, Debug, PartialEq)]
pub struct Header {
    pub function: u8,
    pub length: u16,
}

impl Header {
    // The header's octets.
    pub fn octets(&self) -> [u8; 4] {
        let [high, low] = self.length.to_be_bytes();
        [0x81, self.function, high, low]
    }
}

// What a message carries: an NPDU, a part of its octets; a time to live in seconds; no NPDU.
#[derive(Clone, Debug, PartialEq)]
pub enum Carried<'a> {
    Npdu(&'a [u8]),
    TimeToLive(u16),
    NoNpdu,
}

// A message with the right length: any function, and the octets behind the header.
pub fn message(function: u8, behind: &[u8]) -> Vec<u8> {
    let length = u16::try_from(4 + behind.len()).expect("a length of two octets");
    then(&Header { function, length }.octets(), behind)
}

// The header in front.
pub fn read(octets: &[u8]) -> Result<Header, u8> {
    let [kind, function, high, low, ..] = *octets else {
        return Err(11);
    };
    if kind != 0x81 {
        return Err(12);
    }
    if function > LAST_FUNCTION {
        return Err(13);
    }
    let length = u16::from_be_bytes([high, low]);
    Ok(Header { function, length })
}

// What a message carries.
pub fn process(message: &[u8]) -> Result<Carried<'_>, u8> {
    let header = read(message)?;
    if message.len() != usize::from(header.length) {
        return Err(14);
    }
    let start = match header.function {
        0x0A | 0x0B => 4,
        0x04 => 10,
        0x05 if message.len() == 6 => {
            return Ok(Carried::TimeToLive(number(&message[4..]) as u16));
        }
        _ => return Ok(Carried::NoNpdu),
    };
    match message.get(start..) {
        None | Some([]) => Err(15),
        Some(npdu) => Ok(Carried::Npdu(npdu)),
    }
}

// A header, into so much room.
pub fn write(header: &Header, room: usize) -> Result<Vec<u8>, u8> {
    match room {
        0..4 => Err(16),
        _ => Ok(header.octets().to_vec()),
    }
}
