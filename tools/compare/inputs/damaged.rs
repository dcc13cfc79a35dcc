// Runs of damage and written frames, as demand 3 has them.

use shared::model::checks::Checks;
use shared::model::finder::Report;
use shared::model::mstp::{header, size};
use shared::random::Random;

use crate::check::Rule;
use crate::inputs::runs::{frame, spark, Sent};
use crate::inputs::{one_in, one_of};

// Some damage, and behind it to the run's end written frames with 55 FF at their heads alone.
pub struct Damaged {
    pub run: Vec<u8>,
    // How many octets are damage.
    pub damage: usize,
    // The frames' places and octet counts.
    pub frames: Vec<Report>,
}

impl Damaged {
    // One under a rule. At times the damage ends in the front of a false frame, whose data check
    // stands in the data of a written one.
    pub fn new(rule: Rule, random: &mut Random) -> Damaged {
        let mut damage = Vec::new();
        for _ in 0..random.below(5) {
            damage.extend(match random.below(2) {
                0 => spark(rule, random),
                _ => frame(rule, random),
            });
        }
        let mut sent = Vec::new();
        let count = random.below(24);
        while sent.len() < count {
            let most = one_of(&[0, 20, 100, 501], random);
            let frame = Sent::new(most, random);
            if frame.one_head(rule) {
                sent.push(frame);
            }
        }
        if one_in(2, random) {
            false_frame(rule, &mut damage, &mut sent, random);
        }
        Damaged::of(rule, damage, &sent)
    }

    // The run, and where the frames stand in it.
    fn of(rule: Rule, damage: Vec<u8>, sent: &[Sent]) -> Damaged {
        let mut frames = Vec::new();
        let count = damage.len();
        let mut run = damage;
        for frame in sent {
            let octets = frame.octets(rule);
            frames.push((run.len(), octets.len()));
            run.extend(octets);
        }
        Damaged {
            run,
            damage: count,
            frames,
        }
    }
}

// Puts the front of a false frame behind the damage, and its data check into the data of a frame, if
// there is one where it can stand.
fn false_frame(rule: Rule, damage: &mut Vec<u8>, sent: &mut [Sent], random: &mut Random) {
    let more = random.fewer(20);
    let mut behind = more.len();
    for index in 0..sent.len() {
        let data = sent[index].data.len();
        if data >= 2 && one_in(3, random) {
            let inside = random.below(data - 1);
            let length = behind + 8 + inside;
            if length > 501 {
                return;
            }
            let frames = sent[..=index].iter().flat_map(|frame| frame.octets(rule));
            let covered: Vec<u8> = more.iter().copied().chain(frames).take(length).collect();
            let check = rule.data_check(&covered).to_le_bytes();
            let mut changed = sent[index].clone();
            changed.data[inside..inside + 2].copy_from_slice(&check);
            if changed.one_head(rule) {
                sent[index] = changed;
                let three = Sent::new(0, random).three;
                damage.extend(header(rule, three, length as u16));
                damage.extend(more);
            }
            return;
        }
        behind += size(data);
    }
}
