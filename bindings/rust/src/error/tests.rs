//! Each question's error and words.

use std::collections::BTreeMap;

use super::DataLinkError::{CrcError, InvalidFrame, Refused};
use crate::questions;
use crate::raw::data_link_error;

#[test]
fn errors_of_questions() {
    for question in 0..=0xFF {
        let expected = match question {
            4 | 6 => CrcError(question),
            1..=7 | 11..=15 | 21..=24 => InvalidFrame(question),
            _ => Refused(question),
        };
        assert_eq!(data_link_error(question), expected);
        assert_eq!(expected.question(), question);
    }
}

const PAGE: &str = include_str!("../../../../docs/QUESTIONS.md");

/// The lines of the documentation of `DataLinkError`.
fn documentation() -> impl Iterator<Item = &'static str> {
    let source = include_str!("../error.rs");
    let (before, _) = source.split_once("\npub enum DataLinkError").unwrap();
    before.lines().filter_map(|line| line.strip_prefix("/// "))
}

/// The questions in tables, whose rows begin with number and words: the heading above, the number, the words.
fn in_tables(
    lines: impl Iterator<Item = &'static str>,
    heading: fn(&'static str) -> Option<&'static str>,
) -> Vec<(&'static str, u8, &'static str)> {
    let (mut above, mut questions) = ("", vec![]);
    for line in lines {
        above = heading(line).unwrap_or(above);
        let mut cells = line.split('|').skip(1).map(str::trim);
        if let (Some(Ok(number)), Some(words)) = (cells.next().map(str::parse), cells.next()) {
            questions.push((above, number, words));
        }
    }
    questions
}

fn questions_of_the_page() -> Vec<(&'static str, u8, &'static str)> {
    in_tables(PAGE.lines(), |line| line.strip_prefix("## "))
}

#[test]
fn words_of_the_page() {
    let mut words = BTreeMap::new();
    for (_, question, text) in questions_of_the_page() {
        assert_eq!(words.insert(question, text), None, "question {question}");
    }
    assert!(words.len() >= 30);
    for question in 0..=0xFF {
        let words = words.get(&question).copied();
        assert_eq!(questions::text(question), words, "question {question}");
    }
}

#[test]
fn documentation_in_the_words_of_the_page() {
    let documented = in_tables(documentation(), |line| line.strip_suffix(':'));
    assert_eq!(documented, questions_of_the_page());
    let no_question = |line: &&str| line.starts_with("| F");
    let answers: Vec<&str> = documentation().filter(no_question).collect();
    assert_eq!(answers.len(), 2);
    assert_eq!(
        answers,
        PAGE.lines().filter(no_question).collect::<Vec<_>>()
    );
}

#[test]
fn errors_in_words() {
    for (question, words) in [
        (1, "Invalid frame format (question 1: at least 8 octets?)"),
        (4, "CRC check failed (question 4: header check right?)"),
        (6, "CRC check failed (question 6: data check right?)"),
        (
            7,
            "Invalid frame format (question 7: at most 501 data octets?)",
        ),
        (
            8,
            "Refused (question 8: does the frame fit the lent output?)",
        ),
        (
            22,
            "Invalid frame format (question 22: 82 DC at octets 12 and 13?)",
        ),
        (31, "Refused (question 31: at most 65,535 octets?)"),
        (
            44,
            "Refused (question 44: do payload and time fit before the trailer?)",
        ),
        (45, "Refused (question 45)"),
        (61, "Refused (question 61: length field 3 to 1500?)"),
        (
            62,
            "Refused (question 62: at least that many octets behind octet 13?)",
        ),
    ] {
        assert_eq!(data_link_error(question).to_string(), words);
    }
}

#[test]
fn it_is_an_error() {
    let error: Box<dyn std::error::Error> = Box::new(CrcError(4));
    assert_eq!(
        error.to_string(),
        "CRC check failed (question 4: header check right?)"
    );
}
