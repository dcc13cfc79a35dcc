// The log: questions 41 to 47.

use crate::octets::number;

// The kinds of records, and the least and most octets of one.
const KINDS: [u8; 3] = [1, 2, 3];
const LEAST: usize = 1;
pub const MOST: usize = 1514;

// By how much the octet of a kind is higher where there is a time.
const TIMED: u8 = 10;

// How many octets a second has, and a trailer.
pub const SECOND: usize = 4;
const TRAILER: usize = 3;

// When a record was made: the second, or no time.
pub type Time = Option<u32>;

// A record that was read: its kind, its time, and its octets' place and count.
pub struct Record {
    pub kind: u8,
    pub time: Time,
    pub place: usize,
    pub length: usize,
}

impl Record {
    // The five numbers that it has in lent memory.
    pub fn numbers(&self) -> [usize; 5] {
        let second = self.time.map_or(0, |second| second as usize);
        [
            self.kind.into(),
            self.place,
            self.length,
            self.time.is_some().into(),
            second,
        ]
    }
}

// A record's octets in a log: its own, its time's, then kind and length.
pub fn record(kind: u8, time: Time, payload: &[u8]) -> Vec<u8> {
    let length = u16::try_from(payload.len()).expect("a length of two octets");
    let (octet, second) = match time {
        Some(second) => (kind.wrapping_add(TIMED), second.to_be_bytes().to_vec()),
        None => (kind, Vec::new()),
    };
    [payload, &second, &[octet], &length.to_be_bytes()].concat()
}

// How many octets a log needs for a record of so many.
pub fn size(time: Time, length: usize) -> usize {
    length + time.map_or(0, |_| SECOND) + TRAILER
}

// Whether the octet of a kind says that there is a time.
pub fn timed(octet: u8) -> bool {
    matches!(octet, 0x0B..=0x0D)
}

// Questions 42 and 43.
fn ask(kind: u8, length: usize) -> Result<(), u8> {
    if !KINDS.contains(&kind) {
        return Err(42);
    }
    if !(LEAST..=MOST).contains(&length) {
        return Err(43);
    }
    Ok(())
}

// The record that ends at an end; none at the log's start.
pub fn read(log: &[u8], end: usize) -> Result<Option<Record>, u8> {
    let used = log.get(..end).ok_or(47)?;
    let [ref before @ .., octet, high, low] = *used else {
        return if used.is_empty() { Ok(None) } else { Err(41) };
    };
    let length = number(&[high, low]);
    let kind = if timed(octet) { octet - TIMED } else { octet };
    ask(kind, length)?;
    let (before, time) = match timed(octet) {
        true => {
            let (before, second) = before.split_last_chunk().ok_or(44)?;
            (before, Some(u32::from_be_bytes(*second)))
        }
        false => (before, None),
    };
    let place = before.len().checked_sub(length).ok_or(44)?;
    Ok(Some(Record {
        kind,
        time,
        place,
        length,
    }))
}

// The used octets of a buffer with a record behind them.
pub fn append(
    buffer: &[u8],
    used: usize,
    kind: u8,
    time: Time,
    payload: &[u8],
) -> Result<Vec<u8>, u8> {
    let front = buffer.get(..used).ok_or(47)?;
    ask(kind, payload.len())?;
    let after = [front, &record(kind, time, payload)].concat();
    if after.len() > buffer.len() {
        return Err(46);
    }
    Ok(after)
}
