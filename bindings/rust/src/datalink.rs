//! Frames and messages of the data links, their errors and what is wrong with them.

pub mod bip;
pub mod ethernet;
pub mod mstp;
pub mod validation;

pub use crate::cases::DataLinkType;
pub use crate::error::{DataLinkError, Result};
