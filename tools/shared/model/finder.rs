// The finder and the whole reading: questions 31 to 33. Which frames are valid is asked from outside,
// so that a finder may stand on any MS/TP validator.

use crate::model::checks::Checks;
use crate::model::mstp::{size, LAST_TYPE};
use crate::model::questions::at_most;
use crate::model::validators;
use crate::octets::number;

// A report: place and octet count.
pub type Report = (usize, usize);

// The first acceptable frame that starts at a place or later.
pub fn find(run: &[u8], place: usize, valid: impl Fn(&[u8]) -> bool) -> Option<Report> {
    (place..run.len()).find_map(|start| Some((start, acceptable(&run[start..], &valid)?)))
}

// The octet count of the acceptable frame in front of some octets: type 0 to 7, and valid. Without
// the preamble none is.
fn acceptable(octets: &[u8], valid: impl Fn(&[u8]) -> bool) -> Option<usize> {
    if octets.len() < 8 || octets[..2] != [0x55, 0xFF] || octets[2] > LAST_TYPE {
        return None;
    }
    let count = size(number(&octets[5..7]));
    valid(octets.get(..count)?).then_some(count)
}

// Hands on each report of a whole reading by calls of a finder: from place 0, then from each report's
// end, until there is none.
fn each_report(
    run: &[u8],
    find: impl Fn(&[u8], usize) -> Option<Report>,
    mut hand_on: impl FnMut(Report),
) {
    let mut place = 0;
    while let Some((start, count)) = find(run, place) {
        hand_on((start, count));
        place = start + count;
    }
}

// The reports of a whole reading.
pub fn reports(run: &[u8], find: impl Fn(&[u8], usize) -> Option<Report>) -> Vec<Report> {
    let mut reports = Vec::new();
    each_report(run, find, |report| reports.push(report));
    reports
}

// How many reports a whole reading has.
pub fn count(run: &[u8], find: impl Fn(&[u8], usize) -> Option<Report>) -> usize {
    let mut count = 0;
    each_report(run, find, |_| count += 1);
    count
}

// One call of the finder.
pub fn find_frame(rule: impl Checks, run: &[u8], place: usize) -> Result<Option<Report>, u8> {
    at_most(run)?;
    if place > run.len() {
        return Err(33);
    }
    Ok(find_under(rule, run, place))
}

// The whole reading.
pub fn read_frames(rule: impl Checks, run: &[u8]) -> Result<Vec<Report>, u8> {
    at_most(run)?;
    Ok(reports(run, |run, place| find_under(rule, run, place)))
}

// The finder over the model's validator.
fn find_under(rule: impl Checks, run: &[u8], place: usize) -> Option<Report> {
    find(run, place, |frame| validators::mstp(rule, frame).valid)
}

// Question 32: do the reports fit a list of so many numbers?
pub fn fit(reports: &[Report], room: usize) -> Result<(), u8> {
    match 2 * reports.len() {
        needed if needed > room => Err(32),
        _ => Ok(()),
    }
}
