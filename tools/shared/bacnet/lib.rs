// The Rust's modules as a crate of their own, and the stand-in for one that isn't among its files.
// tools/build copies both beside the Rust's files.

pub mod datalink;
pub mod encoding;
pub mod util;
