// Runs of bus octets: frames, and what sparks leave among them.

use shared::model::mstp::{header, written};
use shared::random::Random;

use crate::check::Rule;
use crate::inputs::mstp::rule as any_rule;
use crate::inputs::{both, one_in, one_of, AskUnder, Octets, LONGEST};

// How many long runs there are of each count.
const LONG: usize = 12;

// What a frame is written from.
#[derive(Clone)]
pub struct Sent {
    pub three: [u8; 3],
    pub data: Vec<u8>,
}

impl Sent {
    // A frame of any type, from a source below 255, with at most so many data octets.
    pub fn new(most: usize, random: &mut Random) -> Sent {
        let destination = one_of(&[255, random.octet()], random);
        let length = random.below(most + 1);
        Sent {
            three: [random.below(8) as u8, destination, random.below(255) as u8],
            data: random.octets(length),
        }
    }

    // The frame written.
    pub fn octets(&self, rule: Rule) -> Vec<u8> {
        written(rule, self.three, &self.data)
    }

    // Whether the frame has 55 FF at its head alone.
    pub fn one_head(&self, rule: Rule) -> bool {
        let octets = self.octets(rule);
        let mut pairs = octets[1..].windows(2);
        !pairs.any(|pair| pair == [0x55, 0xFF])
    }
}

// What runs are made from.
pub fn inputs() -> Octets {
    let frame = |rule, data: &[u8]| written(rule, [0x00, 0x10, 0x05], data);
    let fixed = Rule::ALL.map(|rule| {
        let three = [&frame(rule, &[]), &[0x55][..], &frame(rule, &[0x11])];
        three.concat()
    });
    Octets {
        fixed: fixed.to_vec(),
        good: run,
        near: sparks,
    }
}

// Asks about so many runs under both rules, those of two octets and fewer, changed ones, random ones,
// and long ones; and about some under each number that names no rule.
pub fn under_rules(count: usize, random: &mut Random, ask: AskUnder) {
    let runs = inputs();
    runs.each(count, random, &mut |random, run| both(random, run, ask));
    for length in LONGEST {
        for kind in 0..LONG {
            let run = long(kind, length, random);
            both(random, &run, ask);
        }
    }
    runs.unnamed(random, ask);
}

// A frame of few data octets; at times one that is not acceptable, or of another size.
pub fn frame(rule: Rule, random: &mut Random) -> Vec<u8> {
    let most = match random.below(40) {
        0 => 501,
        1..=3 => 60,
        _ => 6,
    };
    let mut sent = Sent::new(most, random);
    match random.below(24) {
        0 => sent.three[0] = one_of(&[8, 127, 128, 255], random),
        1 => sent.three[2] = 255,
        2 if one_in(3, random) => sent.data = vec![random.octet(); 500 + random.below(4)],
        _ => {}
    }
    sent.octets(rule)
}

// What a spark leaves: noise, parts of heads, headers without their data, cut and changed frames.
pub fn spark(rule: Rule, random: &mut Random) -> Vec<u8> {
    let count = random.below(12);
    let mut some = frame(rule, random);
    match random.below(6) {
        0 => random.octets(count),
        1 => (0..count).map(|_| one_of(&[0x55, 0xFF], random)).collect(),
        2 => {
            let parts = [0x00, 0x01, 0x05, 0x55, 0xFF];
            let header = (0..6).map(|_| one_of(&parts, random));
            [0x55, 0xFF].into_iter().chain(header).collect()
        }
        3 => {
            let length = one_of(&[1, 8, 9, 10, 20, 501, random.below(502)], random);
            header(rule, Sent::new(0, random).three, length as u16)
        }
        4 => {
            some.truncate(random.below(some.len()));
            some
        }
        _ => {
            random.damage(&mut some);
            some
        }
    }
}

// Sparks alone.
fn sparks(random: &mut Random) -> Vec<u8> {
    let rule = any_rule(random);
    let count = 1 + random.below(5);
    (0..count).flat_map(|_| spark(rule, random)).collect()
}

// Frames among sparks, seldom one of the other rule.
fn run(random: &mut Random) -> Vec<u8> {
    let rule = any_rule(random);
    let mut run = Vec::new();
    let count = 1 + random.below(4);
    for _ in 0..count {
        if one_in(2, random) {
            run.extend(spark(rule, random));
        }
        let sender = match random.below(12) {
            0 => any_rule(random),
            _ => rule,
        };
        run.extend(frame(sender, random));
    }
    run
}

// A long run of one of some kinds.
fn long(kind: usize, length: usize, random: &mut Random) -> Vec<u8> {
    let rule = any_rule(random);
    let station = Sent::new(0, random).three;
    let unit = match kind {
        0 => written(rule, station, &[]),
        1 => header(rule, station, 501),
        2 => written(rule, station, &[0x11; 501]),
        3 => vec![0x55, 0xFF],
        4 => vec![0x00],
        5 => written(rule, [station[0], station[1], 255], &[]),
        _ => (0..100).flat_map(|_| run(random)).collect(),
    };
    let mut run: Vec<u8> = unit.into_iter().cycle().take(length).collect();
    if one_in(2, random) {
        let token = written(rule, station, &[]);
        run[length - token.len()..].copy_from_slice(&token);
    }
    run
}
