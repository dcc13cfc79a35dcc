//! Statistics, patterns and both with validation.

mod common;

use common::octets;
use lefkanu::datalink::validation::{
    analyze_frame, calculate_frame_statistics, detect_patterns, validate_frame, Pattern,
    SuspiciousReason,
};
use lefkanu::datalink::DataLinkError::Refused;
use lefkanu::CheckRule::{AnnexG, House};

const ZEROS: Pattern = Pattern::Suspicious {
    description: SuspiciousReason::AllZeros,
};
const SEQUENCE: Pattern = Pattern::Suspicious {
    description: SuspiciousReason::TestSequence,
};

fn padding(start: usize, length: usize, value: u8) -> Pattern {
    Pattern::Padding {
        start,
        length,
        value,
    }
}

fn text(start: usize, length: usize) -> Pattern {
    Pattern::AsciiText { start, length }
}

#[test]
fn statistics() {
    for (frame, null_bytes, high_bytes, longest_run, start) in [
        ("", 0, 0, (0x00, 0), 0),
        ("7F", 0, 0, (0x7F, 1), 0),
        ("80 00 FF 00", 2, 2, (0x80, 1), 0),
        ("01 02 02 03 03", 0, 0, (0x02, 2), 1),
        ("01 02 02 03 03 03", 0, 0, (0x03, 3), 3),
        ("02 02 01 02 02 02", 0, 0, (0x02, 3), 3),
    ] {
        let frame = octets(frame);
        let statistics = calculate_frame_statistics(&frame).unwrap();
        assert_eq!(statistics.null_bytes, null_bytes);
        assert_eq!(statistics.high_bytes, high_bytes);
        assert_eq!(statistics.longest_run, longest_run);
        assert_eq!(statistics.longest_run_start, start);
        let mut expected = [0; 256];
        frame
            .iter()
            .for_each(|&octet| expected[octet as usize] += 1);
        assert_eq!(statistics.byte_distribution, expected);
    }
}

#[test]
fn statistics_of_the_longest() {
    let longest = calculate_frame_statistics(&[0xFF; 65_535]).unwrap();
    assert_eq!(longest.byte_distribution[0xFF], 65_535);
    assert_eq!(longest.byte_distribution[..0xFF], [0; 255]);
    assert_eq!(longest.high_bytes, 65_535);
    assert_eq!(longest.longest_run, (0xFF, 65_535));
    assert_eq!(longest.longest_run_start, 0);
    let mut last = [0xFF; 65_535];
    last[0..65_532]
        .iter_mut()
        .step_by(2)
        .for_each(|octet| *octet = 0x7F);
    let last = calculate_frame_statistics(&last).unwrap();
    assert_eq!(
        (last.longest_run, last.longest_run_start),
        ((0xFF, 4), 65_531)
    );
    let refused = calculate_frame_statistics(&[0xFF; 65_536]);
    assert_eq!(refused, Err(Refused(31)));
}

#[test]
fn patterns() {
    for (frame, expected) in [
        ("", vec![]),
        ("41 41 41", vec![]),
        ("41 41 41 41", vec![text(0, 4)]),
        ("41 41 41 41 41", vec![padding(1, 4, 0x41), text(0, 5)]),
        ("01 FF FF FF", vec![]),
        ("01 FF FF FF FF", vec![padding(1, 4, 0xFF)]),
        (
            "20 7E 20 7E 1F 41 42 43 7F 41 42 43 44 45",
            vec![text(0, 4), text(9, 5)],
        ),
        ("00 00 00 00 00 00 00 00 01", vec![]),
        (
            "00 00 00 00 00 00 00 00 FF FF FF FF",
            vec![padding(8, 4, 0xFF), ZEROS],
        ),
        (
            "00 00 00 00 00 00 00 FF FF FF FF",
            vec![padding(7, 4, 0xFF)],
        ),
        ("00 01 02 03 04 05 06 07", vec![SEQUENCE]),
        ("00 01 02 03 04 05 06", vec![]),
        (
            "00 01 02 03 04 05 06 07 41 42 43 44 FF FF FF FF",
            vec![padding(12, 4, 0xFF), text(8, 4), SEQUENCE],
        ),
    ] {
        assert_eq!(detect_patterns(&octets(frame)), Ok(expected));
    }
}

#[test]
fn patterns_need_a_longer_list() {
    // Texts of four octets, one behind another: as many as there can be.
    let frame = b"bin\x20\x00".repeat(13_107);
    assert_eq!(frame.len(), 65_535);
    let found = detect_patterns(&frame).unwrap();
    let expected: Vec<Pattern> = (0..13_107).map(|n| text(5 * n, 4)).collect();
    assert_eq!(found, expected);
    assert_eq!(found[13_106].text(&frame), Some("bin "));
    for texts in [15, 16, 17, 32, 33] {
        let found = detect_patterns(&frame[..5 * texts]).unwrap();
        assert_eq!(found, expected[..texts]);
    }
}

#[test]
fn patterns_refuse_65_536_octets() {
    assert_eq!(detect_patterns(&[0; 65_536]), Err(Refused(31)));
    assert_eq!(
        detect_patterns(&[0; 65_535]),
        Ok(vec![padding(1, 65_534, 0)])
    );
}

#[test]
fn texts_of_a_frame() {
    let frame = b"\x00bin 7\x00";
    assert_eq!(text(1, 5).text(frame), Some("bin 7"));
    // Another frame, or no text.
    assert_eq!(text(1, 7).text(frame), None);
    assert_eq!(text(8, 1).text(frame), None);
    assert_eq!(text(1, usize::MAX).text(frame), None);
    assert_eq!(text(0, 4).text(&[0xFF; 4]), None);
    assert_eq!(padding(1, 5, 0).text(frame), None);
    assert_eq!(ZEROS.text(frame), None);
}

#[test]
fn analysis_is_all_three() {
    let many_texts = b"bin\x20\x00".repeat(100);
    for frame in [
        octets(""),
        octets("55 FF 00 10 05 00 00 8C"),
        octets("81 0B 00 04"),
        many_texts,
    ] {
        for rule in [AnnexG, House] {
            let analysis = analyze_frame(rule, &frame).unwrap();
            assert_eq!(analysis.validation, validate_frame(rule, &frame));
            let statistics = calculate_frame_statistics(&frame).unwrap();
            assert_eq!(analysis.statistics, statistics);
            assert_eq!(analysis.patterns, detect_patterns(&frame).unwrap());
        }
    }
}

#[test]
fn analysis_follows_the_rule() {
    let token = octets("55 FF 00 10 05 00 00 8C");
    let analysis = analyze_frame(AnnexG, &token).unwrap();
    assert!(analysis.validation.is_valid);
    assert_eq!(analysis.statistics.longest_run, (0x00, 2));
    assert_eq!(analysis.statistics.longest_run_start, 5);
    assert_eq!(analysis.patterns, []);
    assert!(!analyze_frame(House, &token).unwrap().validation.is_valid);
}

#[test]
fn analysis_refuses_65_536_octets() {
    assert_eq!(analyze_frame(AnnexG, &[0x55; 65_536]), Err(Refused(31)));
}
