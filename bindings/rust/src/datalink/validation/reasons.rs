//! The reasons of findings: where bacnet-rs has texts, cases whose `Display` gives the text.

use std::fmt;

/// Why an address is wrong.
#[derive(Debug, Clone, Copy, PartialEq, Eq)]
pub enum AddressReason {
    /// A frame comes from 255, the address of all stations.
    SourceIsBroadcast,
}

impl fmt::Display for AddressReason {
    fn fmt(&self, f: &mut fmt::Formatter<'_>) -> fmt::Result {
        match self {
            Self::SourceIsBroadcast => write!(f, "Source address cannot be broadcast (255)"),
        }
    }
}

/// Why a header is wrong.
#[derive(Debug, Clone, Copy, PartialEq, Eq)]
pub enum HeaderReason {
    /// An MS/TP frame declares this many data octets, more than 501.
    DataLength(u16),
    /// An Ethernet frame has this where 82 DC belongs.
    EthernetType(u16),
    /// An Ethernet frame has this where 82 82 03 belongs.
    LlcHeader([u8; 3]),
    /// The octets tell no data link.
    Undetermined,
}

impl fmt::Display for HeaderReason {
    fn fmt(&self, f: &mut fmt::Formatter<'_>) -> fmt::Result {
        match self {
            Self::DataLength(length) => write!(f, "Data length {length} exceeds maximum 501"),
            Self::EthernetType(found) => {
                write!(f, "Invalid Ethernet type: 0x{found:04X}, expected 0x82DC")
            }
            Self::LlcHeader(found) => {
                write!(f, "Invalid LLC header: {found:02X?}, expected [82, 82, 03]")
            }
            Self::Undetermined => write!(f, "Unable to determine frame type"),
        }
    }
}

/// What is not standard.
#[derive(Debug, Clone, Copy, PartialEq, Eq)]
pub enum ConfigurationReason {
    /// An MS/TP frame of this type, 128 or more.
    ProprietaryType(u8),
    /// A master sends a slave something other than a test request (type 3) or, under Annex G, a data frame (type 5 or
    /// 6). The text is bacnet-rs's under both rules.
    MasterToSlave,
    /// An Ethernet frame goes to several stations and not to all.
    Multicast,
}

impl fmt::Display for ConfigurationReason {
    fn fmt(&self, f: &mut fmt::Formatter<'_>) -> fmt::Result {
        match self {
            Self::ProprietaryType(frame_type) => {
                write!(f, "Proprietary frame type: {frame_type}")
            }
            Self::MasterToSlave => {
                write!(f, "Master communicating with slave without Test Request")
            }
            Self::Multicast => write!(f, "Multicast address used instead of broadcast"),
        }
    }
}

/// What may be a risk.
#[derive(Debug, Clone, Copy, PartialEq, Eq)]
pub enum SecurityReason {
    /// Function 0C.
    SecureBvll,
    /// Function 01 or 08.
    TableModification,
}

impl fmt::Display for SecurityReason {
    fn fmt(&self, f: &mut fmt::Formatter<'_>) -> fmt::Result {
        match self {
            Self::SecureBvll => write!(f, "Secure BVLL should use proper encryption"),
            Self::TableModification => {
                write!(f, "Table modification functions should be authenticated")
            }
        }
    }
}

/// What is suspicious.
#[derive(Debug, Clone, Copy, PartialEq, Eq)]
pub enum SuspiciousReason {
    /// Everything before the padding, at least eight octets, is 00.
    AllZeros,
    /// 00 to 07 in front.
    TestSequence,
}

impl fmt::Display for SuspiciousReason {
    fn fmt(&self, f: &mut fmt::Formatter<'_>) -> fmt::Result {
        match self {
            Self::AllZeros => write!(f, "Frame contains all zeros"),
            Self::TestSequence => write!(f, "Frame starts with sequential test pattern"),
        }
    }
}
