// The Rust's error for a question. The Rust has no such function; its errors are compared with this
// one's answers in every other comparison.

use ffi::lefkanu_data_link_error;
use shared::model::questions::rust_error;
use shared::random::Random;

use crate::call::Call;
use crate::outcome::Rust;
use crate::tally::{Tally, LEAST};

// All numbers, again and again: there are only 256.
pub fn data_link_error(tally: &mut Tally, _: &mut Random) {
    while tally.inputs < LEAST {
        for question in 0..=255 {
            tally.compare(Call {
                answer: unsafe { lefkanu_data_link_error(question) },
                lent: &mut [],
                model: match rust_error(question) {
                    None => Ok(Vec::new()),
                    Some(error) => Err(error as u8),
                },
                rust: Rust::Silent,
                input: &|| format!("question {question}"),
            });
        }
    }
}
