// MS/TP frames under the house rule, read and written by the Rust.

use bacnet::datalink::mstp::{MstpFrame, MstpFrameType};

use crate::model::mstp::Frame;
use crate::model::questions::RustError;
use crate::rust::errors;

// What the Rust reads.
pub fn read(octets: &[u8]) -> Result<Frame<'_>, RustError> {
    let frame = MstpFrame::decode(octets).map_err(errors::told)?;
    Ok(told(octets, &frame))
}

// What the Rust read of some octets. Its data must be theirs.
pub fn told<'a>(octets: &'a [u8], frame: &MstpFrame) -> Frame<'a> {
    let data = &octets[8..][..usize::from(frame.data_length)];
    assert_eq!(frame.data, data, "the data that the Rust read");
    Frame {
        three: [frame.frame_type as u8, frame.destination, frame.source],
        header_check: frame.header_crc,
        data_check: frame.data_crc,
        data,
    }
}

// What the Rust writes, if it has the type.
pub fn write(three: [u8; 3], data: &[u8]) -> Option<Result<Vec<u8>, RustError>> {
    let [kind, destination, source] = three;
    let kind = MstpFrameType::from_u8(kind)?;
    let frame = MstpFrame::new(kind, destination, source, data.to_vec());
    Some(frame.map(|frame| frame.encode()).map_err(errors::told))
}
