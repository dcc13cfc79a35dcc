// What the tools share: octets and random ones, a model of document 01 with document 02's changes,
// and the Rust asked in the model's terms.

pub mod model;
pub mod octets;
pub mod random;
pub mod rust;
