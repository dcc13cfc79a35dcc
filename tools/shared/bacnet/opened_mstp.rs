// Behind the Rust's file: its private function, shown.
pub fn opened_header_crc(header: &[u8; 5]) -> u8 {
    calculate_header_crc(header)
}
