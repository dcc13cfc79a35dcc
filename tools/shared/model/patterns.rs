// The patterns in octets: questions 31 and 32.

use crate::model::padding::State;
use crate::model::questions::at_most;

// The least text, and the least zeros before a padding.
const LEAST: usize = 4;
const LEAST_ZEROS: usize = 8;

// Pattern, start, length and octet value.
pub type Entry = [usize; 4];

// The entries, into a list of so many numbers.
pub fn detect(octets: &[u8], room: usize) -> Result<Vec<Entry>, u8> {
    at_most(octets)?;
    let entries = found(octets);
    if entries.as_flattened().len() > room {
        return Err(32);
    }
    Ok(entries)
}

// Every pattern in the octets, in document 01's order.
pub fn found(octets: &[u8]) -> Vec<Entry> {
    let padding = padding(octets);
    let before = padding.map_or(octets.len(), |[_, start, _, _]| start);
    let mut entries = Vec::from_iter(padding);
    entries.extend(texts(octets));
    if before >= LEAST_ZEROS && octets[..before].iter().all(|octet| *octet == 0) {
        entries.push([3, 0, 0, 0]);
    }
    if octets.starts_with(&[0, 1, 2, 3, 4, 5, 6, 7]) {
        entries.push([4, 0, 0, 0]);
    }
    entries
}

// The padding: the last octet's run, if it is long enough.
fn padding(octets: &[u8]) -> Option<Entry> {
    let state = State::of(octets);
    let length = state.length();
    let start = octets.len() - length;
    (length > 0).then_some([1, start, length, usize::from(state.last)])
}

// The texts: what octets other than 20 to 7E part from each other, if it is long enough.
fn texts(octets: &[u8]) -> Vec<Entry> {
    let mut texts = Vec::new();
    let mut start = 0;
    for part in octets.split(|octet| !(0x20..=0x7E).contains(octet)) {
        if part.len() >= LEAST {
            texts.push([2, start, part.len(), 0]);
        }
        start += part.len() + 1;
    }
    texts
}
