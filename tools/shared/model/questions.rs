// Question 31, which several calls share, and the Rust's error for each question.

// The most octets that are counted, searched for patterns or read as a run.
pub const MOST: usize = 65_535;

// Question 31.
pub fn at_most(octets: &[u8]) -> Result<(), u8> {
    match octets.len() {
        0..=MOST => Ok(()),
        _ => Err(31),
    }
}

// The Rust's errors, under the numbers that lefkanu_data_link_error gives them.
#[derive(Clone, Copy, Debug, PartialEq)]
pub enum RustError {
    InvalidFrame = 1,
    CrcError = 2,
}

// The Rust's error where a question fails, if it asks it.
pub fn rust_error(question: u8) -> Option<RustError> {
    match question {
        4 | 6 => Some(RustError::CrcError),
        1..=7 | 11..=15 | 21..=24 => Some(RustError::InvalidFrame),
        _ => None,
    }
}
