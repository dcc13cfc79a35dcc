// The Rust asked, its answers in the model's terms.

pub mod analysis;
pub mod bvlc;
pub mod checks;
pub mod errors;
pub mod ethernet;
pub mod finder;
pub mod findings;
pub mod mstp;
