// What a call answers and leaves in lent memory: by the model, and by the Rust where it has an answer.

use ffi::NONE;
use shared::model::questions::RustError;

use crate::written::{InMemory, Written};

// What is written where the answer is 0, else the answer: a question, NONE or NO_CASE.
pub type Model = Result<Written, u8>;

// What the model gives as it stands in lent memory.
pub fn model<T: InMemory>(result: Result<T, u8>) -> Model {
    result.map(|result| result.written())
}

// The same, where there may be no result.
pub fn model_or_none<T: InMemory>(result: Result<Option<T>, u8>) -> Model {
    model(result.and_then(|result| result.ok_or(NONE)))
}

// A refusal of the Rust.
pub enum Refusal {
    // Its error.
    Error(RustError),
    // What the library must answer, where the Rust says None: NONE or NO_CASE.
    Answer(u8),
}

// What is written in the Rust's opinion, or how it refuses.
pub type Told = Result<Written, Refusal>;

pub enum Rust {
    // It has no answer.
    Silent,
    // It judges all of the answer.
    Whole(Told),
    // It judges all but whether Annex G's checks are right and which they are, and that data frames to
    // a slave get no warning under Annex G.
    ButChecks(Told),
}

impl Rust {
    // It judges all of the answer.
    pub fn whole<T: InMemory>(result: Result<T, RustError>) -> Rust {
        Rust::Whole(match result {
            Ok(result) => Ok(result.written()),
            Err(error) => Err(Refusal::Error(error)),
        })
    }

    // It judges what it writes, if that fits so much room.
    pub fn fitting(result: Result<Vec<u8>, RustError>, room: usize) -> Rust {
        match result {
            Ok(octets) if octets.len() > room => Rust::Silent,
            result => Rust::whole(result),
        }
    }

    // The library must give an answer: NONE or NO_CASE.
    pub fn answer(answer: u8) -> Rust {
        Rust::Whole(Err(Refusal::Answer(answer)))
    }
}
