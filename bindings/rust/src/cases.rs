//! The enums whose cases are numbers in the library; each is public where it belongs.

/// By which constants the check octets of MS/TP frames are calculated. It also decides one warning of the validators:
/// under Annex G a data frame from a master to a slave does not get it.
#[derive(Debug, Clone, Copy, PartialEq, Eq, Hash)]
#[repr(u8)]
pub enum CheckRule {
    /// Annex G of ANSI/ASHRAE 135: header constant 81, data constant 8408.
    AnnexG = 0,
    /// The rule of bacnet-rs: header constant 55, data constant A001. It misses a station address XORed with AB.
    House = 1,
}

/// What a frame is for.
#[derive(Debug, Clone, Copy, PartialEq, Eq, Hash)]
#[repr(u8)]
pub enum MstpFrameType {
    /// Token.
    Token = 0,
    /// Poll For Master.
    PollForMaster = 1,
    /// Reply To Poll For Master.
    ReplyToPollForMaster = 2,
    /// Test Request.
    TestRequest = 3,
    /// Test Response.
    TestResponse = 4,
    /// BACnet Data Expecting Reply.
    BacnetDataExpectingReply = 5,
    /// BACnet Data Not Expecting Reply.
    BacnetDataNotExpectingReply = 6,
    /// Reply Postponed.
    ReplyPostponed = 7,
}

impl MstpFrameType {
    /// The type of a number; none above 7.
    pub fn from_u8(value: u8) -> Option<Self> {
        Some(match value {
            0 => Self::Token,
            1 => Self::PollForMaster,
            2 => Self::ReplyToPollForMaster,
            3 => Self::TestRequest,
            4 => Self::TestResponse,
            5 => Self::BacnetDataExpectingReply,
            6 => Self::BacnetDataNotExpectingReply,
            7 => Self::ReplyPostponed,
            _ => return None,
        })
    }
}

/// What octets 12 and 13 of an Ethernet frame have. No frame is read in both forms.
#[derive(Debug, Clone, Copy, PartialEq, Eq, Hash)]
#[repr(u8)]
pub enum EthernetForm {
    /// The form of bacnet-rs: 82 DC. Padding cannot be told from the payload.
    EtherType = 0,
    /// The form of clause 7 of ANSI/ASHRAE 135: the length field, which is the count of LLC and payload octets (payload
    /// plus 3), high octet first.
    Length = 1,
}

/// What a message is for.
#[derive(Debug, Clone, Copy, PartialEq, Eq, Hash)]
#[repr(u8)]
pub enum BvlcFunction {
    /// BVLC-Result.
    Result = 0x00,
    /// Write-Broadcast-Distribution-Table.
    WriteBroadcastDistributionTable = 0x01,
    /// Read-Broadcast-Distribution-Table.
    ReadBroadcastDistributionTable = 0x02,
    /// Read-Broadcast-Distribution-Table-Ack.
    ReadBroadcastDistributionTableAck = 0x03,
    /// Forwarded-NPDU.
    ForwardedNpdu = 0x04,
    /// Register-Foreign-Device.
    RegisterForeignDevice = 0x05,
    /// Read-Foreign-Device-Table.
    ReadForeignDeviceTable = 0x06,
    /// Read-Foreign-Device-Table-Ack.
    ReadForeignDeviceTableAck = 0x07,
    /// Delete-Foreign-Device-Table-Entry.
    DeleteForeignDeviceTableEntry = 0x08,
    /// Distribute-Broadcast-To-Network.
    DistributeBroadcastToNetwork = 0x09,
    /// Original-Unicast-NPDU.
    OriginalUnicastNpdu = 0x0A,
    /// Original-Broadcast-NPDU.
    OriginalBroadcastNpdu = 0x0B,
    /// Secure-BVLL.
    SecureBvll = 0x0C,
}

/// What the octets of a record are.
#[derive(Debug, Clone, Copy, PartialEq, Eq, Hash)]
#[repr(u8)]
pub enum RecordKind {
    /// A run of MS/TP bus octets.
    Bus = 1,
    /// A BVLC message.
    Ip = 2,
    /// An Ethernet frame.
    Ethernet = 3,
}

/// The data links of BACnet.
#[derive(Debug, Clone, Copy, PartialEq, Eq)]
pub enum DataLinkType {
    /// BACnet/IP (Annex J).
    BacnetIp,
    /// BACnet/Ethernet (clause 7).
    Ethernet,
    /// MS/TP (clause 9).
    MsTP,
    /// Point-to-point; as in bacnet-rs, no function here answers it.
    PointToPoint,
    /// ARCnet; as in bacnet-rs, no function here answers it.
    Arcnet,
}
