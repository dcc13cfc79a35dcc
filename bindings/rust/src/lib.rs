//! The octet layer of a reader of BACnet MS/TP bus logs.
//!
//! Names and types are those of bacnet-rs, so that `use bacnet_rs::datalink::mstp::..` becomes
//! `use lefkanu::datalink::mstp::..`; the answers come from the proved library liblefkanu.a. Functions that depend on
//! check octets take a [`CheckRule`] first, and every error has the number of the first question that failed:
//! [`DataLinkError`](datalink::DataLinkError) has them all in words.
//!
//! If the liblefkanu.a that it is linked with has another layout version than this crate, every function panics.
//!
//! ```
//! use lefkanu::datalink::mstp::MstpFrame;
//! use lefkanu::{finder::Frames, log::RecordKind, log::Records, CheckRule};
//!
//! // A token from station 5 to station 16, as a bus record of eight octets.
//! let log = [0x55, 0xFF, 0x00, 0x10, 0x05, 0x00, 0x00, 0x8C, 1, 0, 8];
//! for record in Records::new(&log) {
//!     let record = record?;
//!     assert_eq!(record.kind, RecordKind::Bus);
//!     for report in Frames::new(CheckRule::AnnexG, record.payload) {
//!         let frame = MstpFrame::decode(CheckRule::AnnexG, &record.payload[report?.range()])?;
//!         assert_eq!((frame.source, frame.destination), (5, 16));
//!     }
//! }
//! # Ok::<(), lefkanu::datalink::DataLinkError>(())
//! ```

#![deny(unsafe_code)]
#![warn(missing_docs)]

#[cfg(not(all(target_arch = "x86_64", target_os = "linux")))]
compile_error!("lefkanu: liblefkanu.a is for x86-64 Linux only");

pub mod datalink;
pub mod finder;
pub mod log;
pub mod util;

mod cases;
mod error;
mod ffi;
mod questions;
#[allow(unsafe_code)]
mod raw;

pub use cases::CheckRule;
