// A frame that the library writes, that is changed in place, and that the library reads.

use std::ops::Range;

use ffi::{lefkanu_mstp_decode, lefkanu_mstp_encode};
use random::Random;

use crate::rule::Rule;

// How many data octets the frames have. In long ones neighbouring bits of the data are left alone.
pub const SHORT: Range<usize> = 0..32;
pub const LONG: [usize; 5] = [100, 255, 256, 493, 501];

// Room for the largest frame, and behind it for the zeros of a change of its last octet.
const ROOM: usize = 511 + 3;

// The bits of a pattern of at most 25, turned from a bit of the frame on: bit 0 is the lowest of the
// first octet, bit 8 the lowest of the second.
#[derive(Clone, Copy)]
pub struct Change {
    pub bit: usize,
    pub pattern: u32,
}

pub struct Frame {
    rule: Rule,
    memory: [u8; ROOM],
    octets: usize,
    pub is_short: bool,
}

impl Frame {
    // The frames of a seed, of each type with each count of data octets. Under both rules they have the
    // same addresses and data.
    pub fn all(rule: Rule, seed: u64) -> impl Iterator<Item = Frame> {
        let mut random = Random::seeded(seed);
        let types = |length| (0..8).map(move |kind| (kind, length));
        let each = SHORT.chain(LONG).flat_map(types);
        each.map(move |(kind, length)| Frame::written(rule, kind, length, &mut random))
    }

    // A frame of a type, with random addresses and so many random data octets.
    fn written(rule: Rule, kind: u8, length: usize, random: &mut Random) -> Frame {
        let [to, from] = [0; 2].map(|_| random.octet());
        let data = random.octets(length);
        let mut memory = [0; ROOM];
        let mut octets = 0;
        let (number, list, out) = (rule as u8, data.as_ptr(), memory.as_mut_ptr());
        let answer = unsafe {
            lefkanu_mstp_encode(number, kind, to, from, list, length, out, ROOM, &mut octets)
        };
        assert_eq!(answer, 0, "the answer to writing {length} data octets");
        Frame {
            rule,
            memory,
            octets,
            is_short: SHORT.contains(&length),
        }
    }

    // What was written, with what was changed.
    pub fn octets(&self) -> &[u8] {
        &self.memory[..self.octets]
    }

    // How many bits it has.
    pub fn bits(&self) -> usize {
        8 * self.octets
    }

    // Makes a change, or undoes it.
    pub fn turn(&mut self, Change { bit, pattern }: Change) {
        let rest = &mut self.memory[bit / 8..];
        let four = rest.first_chunk_mut().expect("room for a change");
        *four = (u32::from_le_bytes(*four) ^ pattern << (bit % 8)).to_le_bytes();
    }

    // Whether the library accepts it.
    pub fn is_accepted(&self) -> bool {
        let (number, list, mut header) = (self.rule as u8, self.memory.as_ptr(), [0; 8]);
        unsafe { lefkanu_mstp_decode(number, list, self.octets, &mut header) == 0 }
    }
}
