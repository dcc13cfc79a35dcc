// MS/TP frames: questions 1 to 8.

use crate::model::checks::Checks;
use crate::octets::number;

// The types are 0 to 7.
pub const LAST_TYPE: u8 = 7;

// The most data octets that are written.
pub const MOST_DATA: usize = 501;

// What is read of a frame: type, destination and source; both checks; the data, a part of its octets.
#[derive(Clone, Debug, PartialEq)]
pub struct Frame<'a> {
    pub three: [u8; 3],
    pub header_check: u8,
    pub data_check: Option<u16>,
    pub data: &'a [u8],
}

impl Frame<'_> {
    // The header as lent memory has it.
    pub fn numbers(&self) -> [usize; 8] {
        let [kind, destination, source] = self.three.map(usize::from);
        let check = usize::from(self.header_check);
        let present = usize::from(self.data_check.is_some());
        let data_check = usize::from(self.data_check.unwrap_or(0));
        let length = self.data.len();
        [
            kind,
            destination,
            source,
            check,
            present,
            data_check,
            8,
            length,
        ]
    }
}

// How many octets a frame of so many data octets has.
pub fn size(length: usize) -> usize {
    match length {
        0 => 8,
        _ => 10 + length,
    }
}

// What the octets hold.
pub fn read(rule: impl Checks, octets: &[u8]) -> Result<Frame<'_>, u8> {
    let [first, second, kind, destination, source, high, low, header_check, ref behind @ ..] =
        *octets
    else {
        return Err(1);
    };
    if [first, second] != [0x55, 0xFF] {
        return Err(2);
    }
    if kind > LAST_TYPE {
        return Err(3);
    }
    if header_check != rule.header_check([kind, destination, source, high, low]) {
        return Err(4);
    }
    let length = number(&[high, low]);
    if octets.len() != size(length) {
        return Err(5);
    }
    let (data, sent) = behind.split_at(length);
    let data_check = match *sent {
        [low, high] => Some(u16::from_le_bytes([low, high])),
        _ => None,
    };
    if data_check.is_some_and(|check| check != rule.data_check(data)) {
        return Err(6);
    }
    Ok(Frame {
        three: [kind, destination, source],
        header_check,
        data_check,
        data,
    })
}

// The frame of type, destination, source and data, into so much room.
pub fn write(rule: impl Checks, three: [u8; 3], data: &[u8], room: usize) -> Result<Vec<u8>, u8> {
    if data.len() > MOST_DATA {
        return Err(7);
    }
    if size(data.len()) > room {
        return Err(8);
    }
    Ok(written(rule, three, data))
}

// A frame with right checks, of any type and up to 65,535 data octets.
pub fn written(rule: impl Checks, three: [u8; 3], data: &[u8]) -> Vec<u8> {
    let length = u16::try_from(data.len()).expect("a length of two octets");
    let mut frame = header(rule, three, length);
    if !data.is_empty() {
        frame.extend(data);
        frame.extend(rule.data_check(data).to_le_bytes());
    }
    frame
}

// The first eight octets of a frame.
pub fn header(rule: impl Checks, three: [u8; 3], length: u16) -> Vec<u8> {
    let [kind, destination, source] = three;
    let [high, low] = length.to_be_bytes();
    let five = [kind, destination, source, high, low];
    [&[0x55, 0xFF], &five[..], &[rule.header_check(five)]].concat()
}
