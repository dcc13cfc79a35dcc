//! What is wrong with a frame and what is unusual, its statistics, its patterns, and its padding in order of arrival.

mod analysis;
mod findings;
mod padding;
mod patterns;
mod reasons;
mod result;
mod statistics;

pub use analysis::{analyze_frame, FrameAnalysis};
pub use findings::{ValidationError, ValidationWarning};
pub use padding::PaddingState;
pub use patterns::{detect_patterns, Pattern};
pub use reasons::{
    AddressReason, ConfigurationReason, HeaderReason, SecurityReason, SuspiciousReason,
};
pub use result::{
    validate_bacnet_ip_frame, validate_ethernet_frame, validate_frame, validate_mstp_frame,
    ValidationResult,
};
pub use statistics::{calculate_frame_statistics, FrameStatistics};
