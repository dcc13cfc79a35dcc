//! The functions of the static library, as bindings/c/lefkanu.h has them.

// The version of the layout that is declared here.
pub const LAYOUT_VERSION: u32 = 3;

// What is answered beside 0 and the numbers of questions.
pub const NONE: u8 = 0xFE;
pub const NO_CASE: u8 = 0xFF;

// What a BVLC message carries.
pub const NPDU: usize = 1;
pub const TIME_TO_LIVE: usize = 2;
pub const NO_NPDU: usize = 3;

// The time of a record: none, or a second.
pub const NO_TIME: u8 = 0;
pub const SECOND: u8 = 1;

// How many numbers a validator's result has, statistics beside the distribution, a state of the padding search, and a
// record of a log.
pub const RESULT_NUMBERS: usize = 32;
pub const COUNT_NUMBERS: usize = 5;
pub const PADDING_NUMBERS: usize = 3;
pub const RECORD_NUMBERS: usize = 5;

// How many entries a check table has.
pub const TABLE_ENTRIES: usize = 256;

#[link(name = "lefkanu", kind = "static")]
extern "C" {
    pub fn lefkanu_layout_version() -> u32;

    pub fn lefkanu_data_link_error(question: u8) -> u8;

    pub fn lefkanu_calculate_header_crc(rule: u8, header: *const [u8; 5], crc: *mut u8) -> u8;

    pub fn lefkanu_crc16_mstp(rule: u8, data: *const u8, data_octets: usize, crc: *mut u16) -> u8;

    pub fn lefkanu_header_table(rule: u8, table: *mut [u8; TABLE_ENTRIES]) -> u8;

    pub fn lefkanu_data_table(rule: u8, table: *mut [u16; TABLE_ENTRIES]) -> u8;

    pub fn lefkanu_mstp_decode(
        rule: u8,
        frame: *const u8,
        frame_octets: usize,
        header: *mut [usize; 8],
    ) -> u8;

    pub fn lefkanu_mstp_encode(
        rule: u8,
        frame_type: u8,
        destination: u8,
        source: u8,
        data: *const u8,
        data_octets: usize,
        out: *mut u8,
        out_octets: usize,
        count: *mut usize,
    ) -> u8;

    pub fn lefkanu_bvlc_decode(
        message: *const u8,
        message_octets: usize,
        header: *mut [usize; 2],
    ) -> u8;

    pub fn lefkanu_bvlc_encode(
        function: u8,
        length: u16,
        out: *mut u8,
        out_octets: usize,
        count: *mut usize,
    ) -> u8;

    pub fn lefkanu_process_bvlc_message(
        message: *const u8,
        message_octets: usize,
        carried: *mut [usize; 3],
    ) -> u8;

    pub fn lefkanu_ethernet_decode(
        frame: *const u8,
        frame_octets: usize,
        dest_mac: *mut [u8; 6],
        src_mac: *mut [u8; 6],
        payload: *mut [usize; 2],
    ) -> u8;

    pub fn lefkanu_ethernet_decode_form(
        form: u8,
        frame: *const u8,
        frame_octets: usize,
        dest_mac: *mut [u8; 6],
        src_mac: *mut [u8; 6],
        payload: *mut [usize; 2],
    ) -> u8;

    pub fn lefkanu_ethernet_validate(frame: *const u8, frame_octets: usize) -> u8;

    pub fn lefkanu_ethernet_encode(
        dest_mac: *const [u8; 6],
        src_mac: *const [u8; 6],
        payload: *const u8,
        payload_octets: usize,
        out: *mut u8,
        out_octets: usize,
        count: *mut usize,
    ) -> u8;

    pub fn lefkanu_ethernet_encode_form(
        form: u8,
        dest_mac: *const [u8; 6],
        src_mac: *const [u8; 6],
        payload: *const u8,
        payload_octets: usize,
        out: *mut u8,
        out_octets: usize,
        count: *mut usize,
    ) -> u8;

    pub fn lefkanu_validate_mstp_frame(
        rule: u8,
        frame: *const u8,
        frame_octets: usize,
        result: *mut [usize; RESULT_NUMBERS],
    ) -> u8;

    pub fn lefkanu_validate_bacnet_ip_frame(
        message: *const u8,
        message_octets: usize,
        result: *mut [usize; RESULT_NUMBERS],
    );

    pub fn lefkanu_validate_ethernet_frame(
        frame: *const u8,
        frame_octets: usize,
        result: *mut [usize; RESULT_NUMBERS],
    );

    pub fn lefkanu_validate_frame(
        rule: u8,
        frame: *const u8,
        frame_octets: usize,
        result: *mut [usize; RESULT_NUMBERS],
    ) -> u8;

    pub fn lefkanu_calculate_frame_statistics(
        frame: *const u8,
        frame_octets: usize,
        byte_distribution: *mut [u32; 256],
        counts: *mut [usize; COUNT_NUMBERS],
    ) -> u8;

    pub fn lefkanu_detect_patterns(
        frame: *const u8,
        frame_octets: usize,
        out: *mut u32,
        out_numbers: usize,
        count: *mut usize,
    ) -> u8;

    pub fn lefkanu_padding_step(state: *mut [usize; PADDING_NUMBERS], octet: u8) -> u8;

    pub fn lefkanu_padding_length(state: *const [usize; PADDING_NUMBERS], length: *mut usize)
        -> u8;

    pub fn lefkanu_analyze_frame(
        rule: u8,
        frame: *const u8,
        frame_octets: usize,
        result: *mut [usize; RESULT_NUMBERS],
        byte_distribution: *mut [u32; 256],
        counts: *mut [usize; COUNT_NUMBERS],
        out: *mut u32,
        out_numbers: usize,
        count: *mut usize,
    ) -> u8;

    pub fn lefkanu_find_frame(
        rule: u8,
        run: *const u8,
        run_octets: usize,
        place: usize,
        report: *mut [usize; 2],
    ) -> u8;

    pub fn lefkanu_count_frames(
        rule: u8,
        run: *const u8,
        run_octets: usize,
        count: *mut usize,
    ) -> u8;

    pub fn lefkanu_read_frames(
        rule: u8,
        run: *const u8,
        run_octets: usize,
        out: *mut u32,
        out_numbers: usize,
        count: *mut usize,
    ) -> u8;

    pub fn lefkanu_read_record(
        log: *const u8,
        log_octets: usize,
        end: usize,
        record: *mut [usize; RECORD_NUMBERS],
    ) -> u8;

    pub fn lefkanu_append(
        buffer: *mut u8,
        buffer_octets: usize,
        used: usize,
        kind: u8,
        timed: u8,
        second: u32,
        payload: *const u8,
        payload_octets: usize,
        new_used: *mut usize,
    ) -> u8;
}
