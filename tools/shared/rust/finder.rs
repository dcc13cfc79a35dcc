// A finder over the Rust's MS/TP validator. The Rust itself has none.

use bacnet::datalink::validation::validate_mstp_frame;

use crate::model::finder::{self, Report};

// The first acceptable frame from a place on.
pub fn find(run: &[u8], place: usize) -> Option<Report> {
    finder::find(run, place, |frame| validate_mstp_frame(frame).is_valid)
}
