// Demand 3, of the reports of a whole reading of damage and written frames.

use ffi::{lefkanu_mstp_decode, lefkanu_mstp_encode, lefkanu_validate_mstp_frame, RESULT_NUMBERS};
use shared::model::finder::Report;
use shared::octets::hex;

use crate::check::Rule;
use crate::inputs::damaged::Damaged;
use crate::tally::Tally;

// How far behind the damage a reading is sure.
const SURE: usize = 510;

// Holds the library's reports to demand 3: those 510 octets or more behind the damage are the frames
// that start there, and each one passes every check and, written anew, gives its octets.
pub fn demand_3(tally: &mut Tally, rule: Rule, damaged: &Damaged, reports: &[Report]) {
    let Damaged { run, damage, .. } = damaged;
    let sure = damage + SURE;
    let late = |frames: &[Report]| -> Vec<Report> {
        let frames = frames.iter().copied();
        frames.filter(|(start, _)| *start >= sure).collect()
    };
    let expected = late(&damaged.frames);
    let kept = late(reports) == expected;
    let sound = |(start, count): &Report| {
        let octets = run.get(*start..start + count);
        octets.is_some_and(|frame| sound(rule, frame))
    };
    if !kept || !reports.iter().all(sound) {
        tally.differs(&|| format!("demand 3, {rule:?}, damage {damage}, {}", hex(run)));
    }
    if !expected.is_empty() {
        tally.see(('d', 1, 0));
    }
    let over = |(start, count): &Report| {
        start < damage && start + count >= damage + 2 && !damaged.frames.is_empty()
    };
    if reports.iter().any(over) {
        tally.see(('d', 2, 0));
    }
}

// Whether the library's validator has no error, its reading accepts, and its writing of what was read
// gives the same octets.
fn sound(rule: Rule, frame: &[u8]) -> bool {
    let (rule, octets, size) = (rule as u8, frame.as_ptr(), frame.len());
    let mut result = [0; RESULT_NUMBERS];
    let mut header = [0; 8];
    let valid = unsafe { lefkanu_validate_mstp_frame(rule, octets, size, &mut result) };
    let read = unsafe { lefkanu_mstp_decode(rule, octets, size, &mut header) };
    if [valid, read] != [0, 0] || result[0] != 1 {
        return false;
    }
    let [kind, to, from, _, _, _, place, count] = header;
    let [kind, to, from] = [kind, to, from].map(|number| number as u8);
    let data = frame[place..][..count].as_ptr();
    let mut out = vec![0; size];
    let (list, mut written) = (out.as_mut_ptr(), 0);
    let answer =
        unsafe { lefkanu_mstp_encode(rule, kind, to, from, data, count, list, size, &mut written) };
    answer == 0 && kind <= 7 && written == size && out == frame
}
