//! The data check and its table.

use crate::cases::CheckRule;
use crate::raw;

/// The data check of any octets; a frame sends its low octet first.
///
/// ```
/// use lefkanu::{util::crc16_mstp, CheckRule};
///
/// assert_eq!(crc16_mstp(CheckRule::AnnexG, &[0x01, 0x22, 0x30]), 0xBD10);
/// assert_eq!(crc16_mstp(CheckRule::House, &[0x01, 0x22, 0x30]), 0x4BC7);
/// ```
pub fn crc16_mstp(rule: CheckRule, data: &[u8]) -> u16 {
    raw::crc16_mstp(rule, data)
}

/// The table of the data check, which controllers burn. Entry `i` is `i` after eight steps, each a shift right and,
/// if the bit shifted out was 1, an XOR with the rule's constant. A check starts with all bits one, becomes
/// `table[(crc ^ octet) & 0xFF] ^ (crc >> 8)` with each octet, and is complemented at the end.
///
/// ```
/// use lefkanu::{util::data_table, CheckRule};
///
/// let table = data_table(CheckRule::AnnexG);
/// let mut crc: u16 = 0xFFFF;
/// for octet in [0x01, 0x22, 0x30] {
///     crc = table[usize::from((crc ^ octet) & 0xFF)] ^ (crc >> 8);
/// }
/// assert_eq!(!crc, 0xBD10);
/// ```
pub fn data_table(rule: CheckRule) -> [u16; 256] {
    raw::data_table(rule)
}
