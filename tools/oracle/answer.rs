// What the answers of all layers share: refusals, an output before and after a call, and that the Rust
// must answer the same.

use std::fmt::Debug;

use shared::model::questions::{rust_error, RustError};
use shared::octets::hex;

use crate::list::front;

// What stands in an output before the call, and how many octets behind it are looked at too.
const BEFORE: u8 = 0xA5;
const BEHIND: usize = 16;

// The answer where a question is the first to fail: the letter of its error, `N` where the Rust has
// no answer, and its number.
pub fn refusal(question: u8) -> String {
    let letter = match rust_error(question) {
        Some(RustError::InvalidFrame) => 'I',
        Some(RustError::CrcError) => 'C',
        None => 'N',
    };
    format!("E{letter} {question:02x}")
}

// The answer to writing into an output of a size: the count of the octets written, or the refusal;
// then the output and some octets behind it.
pub fn output(written: Result<Vec<u8>, u8>, size: usize) -> String {
    let mut after = vec![BEFORE; size + BEHIND];
    let told = match written {
        Err(question) => refusal(question),
        Ok(octets) => {
            after[..octets.len()].copy_from_slice(&octets);
            format!("F {:04x}", octets.len())
        }
    };
    format!("{told} {}", front(&after))
}

// Panics unless the Rust, asked to do something with some octets, gave document 01's answer.
pub fn compare<T>(act: &str, octets: &[u8], rust: Result<T, RustError>, answer: &Result<T, u8>)
where
    T: Clone + Debug + PartialEq,
{
    let expected = answer.clone().map_err(rust_error);
    assert_eq!(rust.map_err(Some), expected, "{act} {}", hex(octets));
}
