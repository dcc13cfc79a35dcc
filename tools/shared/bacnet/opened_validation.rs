// Behind the Rust's file: its private functions, shown.
pub fn opened_statistics(data: &[u8]) -> FrameStatistics {
    calculate_frame_statistics(data)
}

pub fn opened_patterns(data: &[u8]) -> Vec<Pattern> {
    detect_patterns(data)
}
