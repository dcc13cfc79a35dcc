//! What the tests share.
#![allow(dead_code)]

use lefkanu::CheckRule::{self, AnnexG, House};
use std::fs;
use std::path::PathBuf;

/// Both rules.
pub const RULES: [CheckRule; 2] = [AnnexG, House];

/// The octets that hexadecimal digits spell, two for each.
pub fn octets(hex: &str) -> Vec<u8> {
    hex.split_whitespace()
        .map(|digits| u8::from_str_radix(digits, 16).expect("two digits"))
        .collect()
}

/// A file of the repository.
pub fn file(name: &str) -> Vec<u8> {
    let path = PathBuf::from(env!("CARGO_MANIFEST_DIR"))
        .join("../..")
        .join(name);
    fs::read(&path).unwrap_or_else(|error| panic!("{}: {error}", path.display()))
}

/// A text of the repository.
pub fn text(name: &str) -> String {
    String::from_utf8(file(name)).expect("a text")
}

/// The frames or messages of a sample, one a line; lines with # are comments.
pub fn sample(name: &str) -> Vec<Vec<u8>> {
    text(name)
        .lines()
        .filter(|line| !line.starts_with('#'))
        .map(octets)
        .collect()
}

/// A frame with zeros as data: eight octets of header, then so many zeros, then two check octets.
pub fn with_zeros(header: &str, zeros: usize, check: &str) -> Vec<u8> {
    [octets(header), vec![0; zeros], octets(check)].concat()
}
