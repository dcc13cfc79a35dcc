// The rows of statistics, patterns and analysis, and of the padding search octet by octet, which the
// Rust doesn't have. The Rust's statistics have an entropy besides; it makes lists of the patterns, with
// a text's octets.

use bacnet::datalink::validation::{
    analyze_frame, opened_patterns, opened_statistics, FrameAnalysis, FrameStatistics, Pattern,
};
use ffi::{
    lefkanu_analyze_frame, lefkanu_calculate_frame_statistics, lefkanu_detect_patterns,
    lefkanu_padding_length, lefkanu_padding_step, COUNT_NUMBERS, PADDING_NUMBERS, RESULT_NUMBERS,
};
use shared::model::padding::State;
use shared::rust::analysis as told;
use shared::rust::findings;

use crate::frames::{mstp, octets, Octets};
use crate::row::{front, lent, lent_list, now, pointer, Row, SIZES};
use crate::rules::HOUSE;

pub fn rows() -> Vec<Row> {
    let mut rows = Vec::from(SIZES.map(|size| statistics(octets(size))));
    let padding = |size| -> Octets { vec![0; size].leak() };
    rows.extend(SIZES.map(|size| patterns("patterns, text", text(size), most)));
    rows.extend(SIZES.map(|size| patterns("patterns, binary", octets(size), most)));
    rows.extend(SIZES.map(|size| patterns("patterns, padding", padding(size), most)));
    rows.extend(SIZES.map(|size| patterns("patterns, text, full list", text(size), found)));
    rows.extend(SIZES.map(|size| patterns("patterns, binary, full list", octets(size), found)));
    rows.extend(SIZES.map(|size| patterns("patterns, padding, full list", padding(size), found)));
    rows.extend(SIZES.map(|size| analysis(mstp(size))));
    rows.extend(SIZES.map(|size| steps("padding, step by step, binary", octets(size))));
    rows.extend(SIZES.map(|size| steps("padding, step by step, padding", padding(size))));
    rows.push(length(padding(8)));
    rows
}

// Lines of 15 printable octets and one that isn't.
fn text(count: usize) -> Octets {
    let line = b"analog-value 17\n";
    let lines = line.iter().copied().cycle();
    lines.take(count).collect::<Vec<u8>>().leak()
}

fn statistics(frame: Octets) -> Row {
    let ours =
        pointer!(lefkanu_calculate_frame_statistics as unsafe extern "C" fn(_, _, _, _) -> _);
    let theirs = pointer!(opened_statistics as fn(&_) -> _);
    let (distribution, counts) = (lent([0; 256]), lent([0; COUNT_NUMBERS]));
    let ours = move || unsafe { ours(frame.as_ptr(), frame.len(), distribution, counts) };
    assert_eq!(ours(), 0, "statistics");
    compare_statistics(frame, now(distribution), now(counts), &theirs(frame));
    Row::both("statistics", frame.len(), ours, move || theirs(frame))
}

// Panics unless both sides count the same.
fn compare_statistics(
    frame: Octets,
    distribution: [u32; 256],
    counts: [usize; COUNT_NUMBERS],
    theirs: &FrameStatistics,
) {
    let theirs = told::statistics(frame, theirs);
    let distribution = distribution.map(|count| count as usize);
    assert_eq!(distribution.to_vec(), theirs.counts, "statistics");
    assert_eq!(counts, theirs.numbers(), "statistics");
}

// The most patterns that so many octets can have, and those that some octets have: how many a lent
// list has room for.
fn most(frame: Octets) -> usize {
    3 + (frame.len() + 1) / 5
}

fn found(frame: Octets) -> usize {
    opened_patterns(frame).len()
}

fn patterns(name: &'static str, frame: Octets, room: fn(Octets) -> usize) -> Row {
    let ours = pointer!(lefkanu_detect_patterns as unsafe extern "C" fn(_, _, _, _, _) -> _);
    let theirs = pointer!(opened_patterns as fn(&_) -> _);
    let (out, count) = (lent_list(0, 4 * room(frame)), lent(0));
    let ours = move || unsafe {
        let (octets, size, out) = (frame.as_ptr(), frame.len(), &mut *out);
        ours(octets, size, out.as_mut_ptr(), out.len(), count)
    };
    assert_eq!(ours(), 0, "{name}");
    compare_patterns(frame, out, now(count), &theirs(frame));
    Row::both(name, frame.len(), ours, move || theirs(frame))
}

// Panics unless both sides find the same.
fn compare_patterns(frame: Octets, out: *mut [u32], count: usize, theirs: &[Pattern]) {
    let ours = front(out, 4 * count).into_iter();
    let ours: Vec<usize> = ours.map(|number| number as usize).collect();
    let theirs = told::patterns(frame, theirs);
    assert_eq!(ours, theirs.as_flattened(), "patterns");
}

fn analysis(frame: Octets) -> Row {
    let ours =
        pointer!(lefkanu_analyze_frame as unsafe extern "C" fn(_, _, _, _, _, _, _, _, _) -> _);
    let theirs = pointer!(analyze_frame as fn(&_) -> _);
    let result = lent([0; RESULT_NUMBERS]);
    let (values, counts) = (lent([0; 256]), lent([0; COUNT_NUMBERS]));
    let (out, count) = (lent_list(0, 4 * most(frame)), lent(0));
    let ours = move || unsafe {
        let (octets, size, out) = (frame.as_ptr(), frame.len(), &mut *out);
        let (list, room) = (out.as_mut_ptr(), out.len());
        ours(
            HOUSE, octets, size, result, values, counts, list, room, count,
        )
    };
    let analysis: FrameAnalysis = theirs(frame);
    assert_eq!(ours(), 0, "analysis");
    let findings = findings::told(&analysis.validation);
    assert_eq!(now(result), findings.numbers(), "analysis");
    compare_statistics(frame, now(values), now(counts), &analysis.statistics);
    compare_patterns(frame, out, now(count), &analysis.patterns);
    Row::both("analysis", frame.len(), ours, move || theirs(frame))
}

// The padding search in a whole frame, from three zeros. Gives what the last step answers.
fn steps(name: &'static str, frame: Octets) -> Row {
    let ours = pointer!(lefkanu_padding_step as unsafe extern "C" fn(_, _) -> _);
    let state = lent([0; PADDING_NUMBERS]);
    let ours = move || unsafe {
        *state = [0; PADDING_NUMBERS];
        frame.iter().fold(0, |_, octet| ours(state, *octet))
    };
    let expected = State::of(frame).numbers();
    assert_eq!((ours(), now(state)), (0, expected), "{name}");
    Row::alone(name, frame.len(), ours)
}

// The padding's length in the state after a frame.
fn length(frame: Octets) -> Row {
    let ours = pointer!(lefkanu_padding_length as unsafe extern "C" fn(_, _) -> _);
    let state = State::of(frame);
    let (numbers, length) = (lent(state.numbers()), lent(0));
    let ours = move || unsafe { ours(numbers, length) };
    assert_eq!((ours(), now(length)), (0, state.length()), "length");
    Row::alone("padding, length", frame.len(), ours)
}
