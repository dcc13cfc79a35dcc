// The check octets of the house rule, by the Rust.

use bacnet::datalink::mstp::opened_header_crc;
use bacnet::util::crc16_mstp;

use crate::model::checks::Checks;

#[derive(Clone, Copy)]
pub struct House;

impl Checks for House {
    fn is_annex_g(self) -> bool {
        false
    }

    fn header_check(self, five: [u8; 5]) -> u8 {
        opened_header_crc(&five)
    }

    fn data_check(self, data: &[u8]) -> u16 {
        crc16_mstp(data)
    }
}
