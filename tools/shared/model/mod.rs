// What document 01, with document 02's changes, says of each call: the questions in their order, and
// the result where none fails. A refusal is the question's number.

pub mod analysis;
pub mod bvlc;
pub mod checks;
pub mod ethernet;
pub mod finder;
pub mod findings;
pub mod log;
pub mod mstp;
pub mod padding;
pub mod patterns;
pub mod questions;
pub mod statistics;
pub mod trials;
pub mod validators;
