// The Rust's errors.

use bacnet::datalink::DataLinkError;

use crate::model::questions::RustError;

// The error of a question that the Rust's error is.
pub fn told(error: DataLinkError) -> RustError {
    match error {
        DataLinkError::InvalidFrame => RustError::InvalidFrame,
        DataLinkError::CrcError => RustError::CrcError,
        _ => panic!("an error of no question: {error}"),
    }
}
