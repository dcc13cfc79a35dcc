//! Padding in order of arrival.

mod common;

use common::{octets, sample};
use lefkanu::datalink::validation::{detect_patterns, PaddingState, Pattern};
use lefkanu::datalink::DataLinkError::Refused;

const MAX: usize = usize::MAX;

fn state(started: bool, last: u8, run: usize) -> PaddingState {
    PaddingState { started, last, run }
}

/// The state after octets.
fn after(octets: &[u8]) -> PaddingState {
    octets
        .iter()
        .fold(PaddingState::new(), |state, &octet| state.step(octet))
}

/// The padding of a state after so many octets; none where its length is 0.
fn padding(state: PaddingState, octets: usize) -> Option<Pattern> {
    let length = state.padding_length();
    (length > 0).then(|| Pattern::Padding {
        start: octets - length,
        length,
        value: state.last,
    })
}

/// The padding that `detect_patterns` finds.
fn detected(octets: &[u8]) -> Option<Pattern> {
    let patterns = detect_patterns(octets).unwrap();
    patterns
        .into_iter()
        .find(|pattern| matches!(pattern, Pattern::Padding { .. }))
}

/// A frame octet by octet: at every front the padding is that of `detect_patterns`. Answers how many fronts have any.
fn feed(frame: &[u8]) -> usize {
    let mut state = PaddingState::new();
    let mut padded = 0;
    for count in 0..=frame.len() {
        let front = &frame[..count];
        if let Some(&octet) = front.last() {
            state = state.step(octet);
        }
        let found = padding(state, count);
        assert_eq!(found, detected(front), "{front:02X?}");
        padded += usize::from(found.is_some());
    }
    padded
}

#[test]
fn before_the_first_octet() {
    assert_eq!(PaddingState::new(), state(false, 0, 0));
    assert_eq!(PaddingState::default(), state(false, 0, 0));
    assert_eq!(PaddingState::new().padding_length(), 0);
}

#[test]
fn octets_one_by_one() {
    for (frame, runs, lengths) in [
        // Index 0 is not counted.
        ("41 41 41 41 41", vec![0, 1, 2, 3, 4], vec![0, 0, 0, 0, 4]),
        ("00 00 00 00 00", vec![0, 1, 2, 3, 4], vec![0, 0, 0, 0, 4]),
        ("00 FF FF FF FF", vec![0, 1, 2, 3, 4], vec![0, 0, 0, 0, 4]),
        // A run starts anew at 1.
        ("41 42 41 41 42", vec![0, 1, 1, 2, 1], vec![0, 0, 0, 0, 0]),
        (
            "01 02 02 02 02 02 01 01 01 01",
            vec![0, 1, 2, 3, 4, 5, 1, 2, 3, 4],
            vec![0, 0, 0, 0, 4, 5, 0, 0, 0, 4],
        ),
    ] {
        let mut before = PaddingState::new();
        let (mut found_runs, mut found_lengths) = (vec![], vec![]);
        for octet in octets(frame) {
            let more = before.step(octet);
            assert_eq!((more.started, more.last), (true, octet));
            found_runs.push(more.run);
            found_lengths.push(more.padding_length());
            before = more;
        }
        assert_eq!((found_runs, found_lengths), (runs, lengths));
    }
}

#[test]
fn states_made_by_hand() {
    for (before, octet, expected) in [
        (state(false, 7, 9), 8, state(true, 8, 0)),
        (state(false, 8, 9), 8, state(true, 8, 0)),
        (state(false, 0, MAX), 0, state(true, 0, 0)),
        (state(true, 7, 9), 7, state(true, 7, 10)),
        (state(true, 7, 9), 8, state(true, 8, 1)),
        (
            state(true, 7, 0xFFFF_FFFF),
            7,
            state(true, 7, 0x1_0000_0000),
        ),
        (state(true, 7, MAX - 1), 7, state(true, 7, MAX)),
        (state(true, 7, MAX), 7, state(true, 7, MAX)),
        (state(true, 7, MAX), 8, state(true, 8, 1)),
    ] {
        assert_eq!(before.step(octet), expected);
    }
}

#[test]
fn every_pair_of_octets() {
    for last in 0..=0xFF {
        for octet in 0..=0xFF {
            let run = if octet == last { 6 } else { 1 };
            assert_eq!(state(true, last, 5).step(octet), state(true, octet, run));
            assert_eq!(state(false, last, 5).step(octet), state(true, octet, 0));
        }
    }
}

#[test]
fn padding_from_four_on() {
    for started in [false, true] {
        for last in 0..=0xFF {
            for run in [0, 1, 2, 3] {
                assert_eq!(state(started, last, run).padding_length(), 0);
            }
            for run in [4, 5, 255, 256, 65_535, 65_536, 0x1_0000_0003, MAX] {
                assert_eq!(state(started, last, run).padding_length(), run);
            }
        }
    }
}

#[test]
fn every_front() {
    for (frame, padded) in [
        ("", 0),
        ("41 41 41 41", 0),
        ("41 41 41 41 41 41", 2),
        ("00 01 02 03 04 05 06 07 07 07 07 07", 2),
        ("00 00 00 00 00 00 00 00 FF FF FF FF", 5),
        ("01 FF FF FF 01 FF FF FF FF 01 01 01 01 FF", 2),
    ] {
        assert_eq!(feed(&octets(frame)), padded);
    }
}

#[test]
fn every_front_of_all_frames_of_three_octet_values() {
    let mut frame = [0; 9];
    for number in 0..3_usize.pow(9) {
        let mut digits = number;
        for octet in &mut frame {
            *octet = [0x00, 0x41, 0xFF][digits % 3];
            digits /= 3;
        }
        feed(&frame);
    }
}

#[test]
fn every_front_of_the_samples() {
    for (name, frames, padded) in [
        ("samples/mstp-frames.txt", 13, 0),
        ("samples/bvlc-messages.txt", 16, 0),
        ("samples/ethernet-frames.txt", 9, 168),
    ] {
        let sample = sample(name);
        assert_eq!(sample.len(), frames);
        let fed: usize = sample.iter().map(|frame| feed(frame)).sum();
        assert_eq!(fed, padded);
    }
}

#[test]
fn more_than_65_535_octets() {
    for (front, octet, length) in [
        ("", 0x00, 65_534),
        ("01", 0x00, 65_534),
        ("01 02 41 41", 0x41, 65_533),
    ] {
        let mut frame = octets(front);
        frame.resize(65_535, octet);
        assert_eq!(after(&frame), state(true, octet, length));
        assert_eq!(padding(after(&frame), 65_535), detected(&frame));
        frame.resize(70_000, octet);
        assert_eq!(detect_patterns(&frame), Err(Refused(31)));
        let more = after(&frame);
        assert_eq!(more, state(true, octet, length + 4_465));
        assert_eq!(more.padding_length(), length + 4_465);
    }
}
