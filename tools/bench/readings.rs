// The rows of the finder, and whole readings by it. The Rust has none of this: its side is a finder
// over its validator.

use ffi::{lefkanu_count_frames, lefkanu_find_frame, lefkanu_read_frames, NONE};
use shared::model::finder::{count as count_with, reports, Report};
use shared::rust::finder::find as rust_find;

use crate::frames::{mstp, octets, Octets};
use crate::row::{front, lent, lent_list, now, pointer, Row, SIZES};
use crate::rules::HOUSE;
use crate::runs::KINDS;

// Finds the first acceptable frame of a run from a place on.
type Finder = fn(&[u8], usize) -> Option<Report>;

// The rows at the sizes of all functions: one report of the finder, and whole readings of tokens.
pub fn rows() -> Vec<Row> {
    let mut rows = Vec::from(SIZES.map(find));
    let theirs = pointer!(rust_find as Finder);
    let tokens = |size: usize| -> Octets { mstp(8).repeat(size / 8 + 1)[..size].to_vec().leak() };
    rows.extend(SIZES.map(|size| {
        let run = tokens(size);
        let theirs = move || count_with(run, theirs);
        count("count frames, tokens", run, theirs(), theirs)
    }));
    rows.extend(SIZES.map(|size| {
        let run = tokens(size);
        let theirs = move || reports(run, theirs);
        read("read frames, tokens", run, &theirs(), run.len() / 8, theirs)
    }));
    rows
}

fn find(size: usize) -> Row {
    let run: Octets = [octets(size - 8), mstp(8)].concat().leak();
    let theirs = pointer!(rust_find as Finder);
    let ours = finder();
    let ours = move || ours(run, 0);
    assert_eq!(ours(), theirs(run, 0), "find");
    Row::both("find, a token behind noise", run.len(), ours, move || {
        theirs(run, 0)
    })
}

// The finder of the static library.
fn finder() -> impl Fn(&[u8], usize) -> Option<Report> {
    let find = pointer!(lefkanu_find_frame as unsafe extern "C" fn(_, _, _, _, _) -> _);
    let report = lent([0; 2]);
    move |run, place| match unsafe { find(HOUSE, run.as_ptr(), run.len(), place, report) } {
        NONE => None,
        answer => {
            assert_eq!(answer, 0, "the finder refuses");
            Some(now(report).into())
        }
    }
}

// A kind of runs at a size: how many reports there are, and the rows of its whole reading: by calls
// of the finder, by one call that counts, and by one call that hands out the reports, into a list
// with room for the most frames that a run of that size can have, and into one that they just fit.
pub fn whole(kind: usize, size: usize) -> (usize, [Row; 4]) {
    let (name, make) = KINDS[kind];
    let run: Octets = make(size).leak();
    let theirs = pointer!(rust_find as Finder);
    let found = reports(run, theirs);
    let by_calls = {
        let find = finder();
        assert_eq!(reports(run, &find), found, "find");
        Row::both(
            name,
            size,
            move || count_with(run, &find),
            move || count_with(run, theirs),
        )
    };
    let counting = count(name, run, found.len(), move || count_with(run, theirs));
    let theirs = move || reports(run, theirs);
    let reading = read(name, run, &found, size / 8, theirs);
    let full = read(name, run, &found, found.len(), theirs);
    (found.len(), [by_calls, counting, reading, full])
}

fn count(
    name: &'static str,
    run: Octets,
    reports: usize,
    theirs: impl Fn() -> usize + 'static,
) -> Row {
    let ours = pointer!(lefkanu_count_frames as unsafe extern "C" fn(_, _, _, _) -> _);
    let count = lent(0);
    let ours = move || unsafe { ours(HOUSE, run.as_ptr(), run.len(), count) };
    assert_eq!((ours(), now(count)), (0, reports), "count");
    Row::both(name, run.len(), ours, theirs)
}

// Into a list with room for so many frames.
fn read(
    name: &'static str,
    run: Octets,
    found: &[Report],
    room: usize,
    theirs: impl Fn() -> Vec<Report> + 'static,
) -> Row {
    let ours = pointer!(lefkanu_read_frames as unsafe extern "C" fn(_, _, _, _, _, _) -> _);
    let (out, count) = (lent_list(0u32, 2 * room), lent(0));
    let ours = move || unsafe {
        let (octets, size, out) = (run.as_ptr(), run.len(), &mut *out);
        ours(HOUSE, octets, size, out.as_mut_ptr(), out.len(), count)
    };
    assert_eq!((ours(), now(count)), (0, found.len()), "read");
    let pair = |(place, count): &Report| [*place as u32, *count as u32];
    let numbers: Vec<u32> = found.iter().flat_map(pair).collect();
    assert_eq!(front(out, 2 * found.len()), numbers, "read");
    Row::both(name, run.len(), ours, theirs)
}
