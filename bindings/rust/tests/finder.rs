//! The finder and the whole reading.

mod common;

use common::{octets, RULES};
use lefkanu::datalink::DataLinkError::Refused;
use lefkanu::finder::{count_frames, find_frame, read_frames, Frames, Report};
use lefkanu::CheckRule::{AnnexG, House};

const TOKEN: &str = "55 FF 00 10 05 00 00 8C";
const TOKEN_HOUSE: &str = "55 FF 00 10 05 00 00 9A";
const ANSWER: &str = "55 FF 06 05 10 00 03 DA 01 22 30 10 BD";

/// Octets of several parts.
fn run(parts: &[&str]) -> Vec<u8> {
    parts.iter().flat_map(|part| octets(part)).collect()
}

fn reports(pairs: &[(usize, usize)]) -> Vec<Report> {
    let report = |&(place, count): &(usize, usize)| Report { place, count };
    pairs.iter().map(report).collect()
}

#[test]
fn find_from_a_place() {
    let run = run(&["07", TOKEN, "55", ANSWER, "55 FF"]);
    for (place, expected) in [
        (0, Some((1, 8))),
        (1, Some((1, 8))),
        (2, Some((10, 13))),
        (10, Some((10, 13))),
        (11, None),
        (24, None),
        (25, None),
    ] {
        let expected = expected.map(|(place, count)| Report { place, count });
        assert_eq!(find_frame(AnnexG, &run, place), Ok(expected));
    }
    assert_eq!(run.len(), 25);
    assert_eq!(find_frame(AnnexG, &run, 26), Err(Refused(33)));
    assert_eq!(find_frame(AnnexG, &run, usize::MAX), Err(Refused(33)));
}

#[test]
fn find_nothing() {
    for rule in RULES {
        assert_eq!(find_frame(rule, &[], 0), Ok(None));
        assert_eq!(find_frame(rule, &[], 1), Err(Refused(33)));
        assert_eq!(find_frame(rule, &[0x55; 65_535], 65_535), Ok(None));
        // Both questions fail: the first is answered.
        assert_eq!(find_frame(rule, &[0x55; 65_536], 65_537), Err(Refused(31)));
    }
}

#[test]
fn find_by_the_rule() {
    let both = run(&[TOKEN, TOKEN_HOUSE]);
    assert_eq!(read_frames(AnnexG, &both), Ok(reports(&[(0, 8)])));
    assert_eq!(read_frames(House, &both), Ok(reports(&[(8, 8)])));
}

#[test]
fn whole_readings() {
    for (parts, expected) in [
        (vec![], vec![]),
        (vec![TOKEN], vec![(0, 8)]),
        (vec![TOKEN, ANSWER, TOKEN], vec![(0, 8), (8, 13), (21, 8)]),
        // A broken header is passed over by one octet: the frame behind it, within its length, is found.
        (
            vec!["55 FF 06 05 10 00 20 00", TOKEN, TOKEN],
            vec![(8, 8), (16, 8)],
        ),
        // A frame whose data run off the end, and another inside them.
        (
            vec!["55 FF 06 05 10 01 F5 23", "01 02", TOKEN],
            vec![(10, 8)],
        ),
        // A preamble in front of a preamble.
        (vec!["55 FF 55", TOKEN], vec![(3, 8)]),
        // A frame with a token in its data is one frame.
        (
            vec!["55 FF 05 10 05 00 08 ED", TOKEN, "4D 30", TOKEN],
            vec![(0, 18), (18, 8)],
        ),
        // Type 128, valid, and source 255, read, are not acceptable.
        (
            vec!["55 FF 80 00 00 00 00 3F", "55 FF 00 00 FF 00 00 EB", TOKEN],
            vec![(16, 8)],
        ),
    ] {
        let run = run(&parts);
        let expected = reports(&expected);
        assert_eq!(count_frames(AnnexG, &run), Ok(expected.len()));
        assert_eq!(read_frames(AnnexG, &run), Ok(expected.clone()));
        let one_by_one: Result<Vec<Report>, _> = Frames::new(AnnexG, &run).collect();
        assert_eq!(one_by_one, Ok(expected));
    }
}

#[test]
fn a_full_run() {
    let mut run = octets(TOKEN_HOUSE).repeat(8_192);
    run.pop();
    assert_eq!(run.len(), 65_535);
    assert_eq!(count_frames(House, &run), Ok(8_191));
    let frames = read_frames(House, &run).unwrap();
    assert_eq!(frames.len(), 8_191);
    assert_eq!(
        frames[8_190],
        Report {
            place: 65_520,
            count: 8
        }
    );
    assert_eq!(Frames::new(House, &run).count(), 8_191);
}

#[test]
fn runs_of_65_536_octets() {
    let run = octets(TOKEN).repeat(8_192);
    assert_eq!(find_frame(AnnexG, &run, 0), Err(Refused(31)));
    assert_eq!(count_frames(AnnexG, &run), Err(Refused(31)));
    assert_eq!(read_frames(AnnexG, &run), Err(Refused(31)));
    let mut frames = Frames::new(AnnexG, &run);
    assert_eq!(frames.next(), Some(Err(Refused(31))));
    assert_eq!(frames.next(), None);
    assert_eq!(frames.next(), None);
}

#[test]
fn ranges() {
    let run = run(&["07", TOKEN, "07"]);
    let report = find_frame(AnnexG, &run, 0).unwrap().unwrap();
    assert_eq!(report.range(), 1..9);
    assert_eq!(run[report.range()].to_vec(), octets(TOKEN));
}

// Reports made by hand, around the largest end. bindings/test runs this with and without overflow checks.
#[test]
fn ranges_that_no_run_has() {
    const MAX: usize = usize::MAX;
    for (place, count, range) in [
        (MAX, 0, MAX..MAX),
        (MAX - 8, 7, MAX - 8..MAX - 1),
        (MAX - 8, 8, MAX - 8..MAX),
        (MAX - 8, 9, MAX - 8..MAX),
        (MAX, 1, MAX..MAX),
        (MAX, 8, MAX..MAX),
        (8, MAX, 8..MAX),
        (MAX, MAX, MAX..MAX),
    ] {
        let report = Report { place, count };
        assert_eq!(report.range(), range);
        assert_eq!(octets(TOKEN).get(report.range()), None);
    }
}
