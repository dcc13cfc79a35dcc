/* The functions of liblefkanu.a (rt lib in crates/lefkanu), for x86-64.

   Slices: a pointer, then how many numbers it points to. No pointer is null, also where there are none; memory that is
   written to overlaps no other; nobody else writes to any of it meanwhile. A pointer with a size in brackets points to
   exactly so many.

   Answers: 0 where there is a result, and then it stands in the lent memory. Else the number of the first question that
   fails (they are listed below), LEFKANU_NONE, or, before any question is asked, LEFKANU_NO_CASE where a number names no
   rule, form, type, function, time or state; then nothing was written. Only lefkanu_layout_version answers something
   else.

   Rules: LEFKANU_ANNEX_G or LEFKANU_HOUSE, whose octets are those of bacnet-rs. The rule decides the check octets, and
   one warning of the validators.

   Forms of an Ethernet frame: what octets 12 and 13 have. LEFKANU_FORM_ETHER_TYPE: 82 DC, as in bacnet-rs.
   LEFKANU_FORM_LENGTH: the length field of clause 7, which is the count of LLC and payload octets (payload plus 3), high
   octet first. No frame has both forms.

   Times of a record in a log: LEFKANU_NO_TIME, or LEFKANU_SECOND and the second in which it was made. The second 0 is a
   time like any other.

   Layout: how many numbers a caller lends by each pointer, and which number stands where. Its version is raised with
   each change. LEFKANU_LAYOUT_VERSION is the one that a program is compiled for, and lefkanu_layout_version answers that
   of the library that it is linked with. Where they differ, call no other function, and compile the program anew.

   Version 3: record has five numbers, of which the last two are its time, and lefkanu_append is given a time as well.
   Version 2: record had three; counts has five, and the fifth is the start of the longest run. Version 1: counts had
   four, and there was nothing to ask for a version. What was compiled for an older version must be compiled anew: it
   lends three or four numbers, and others are written after them. */
#ifndef LEFKANU_H
#define LEFKANU_H

#include <stddef.h>
#include <stdint.h>

#ifdef __cplusplus
extern "C" {
#endif

/* The version of the layout: here, and as the library answers it. */
#define LEFKANU_LAYOUT_VERSION 3
uint32_t lefkanu_layout_version(void);

/* Rules. */
#define LEFKANU_ANNEX_G 0
#define LEFKANU_HOUSE 1

/* Forms of an Ethernet frame. */
#define LEFKANU_FORM_ETHER_TYPE 0
#define LEFKANU_FORM_LENGTH 1

/* Times of a record. */
#define LEFKANU_NO_TIME 0
#define LEFKANU_SECOND 1

/* The questions in words. docs/QUESTIONS.md says who asks which, and in which order. Octet values and BVLC functions
   are hexadecimal, all else is decimal.

   MS/TP frames:
    1  at least 8 octets?
    2  begins 55 FF?
    3  type 0 to 7?
    4  header check right?
    5  total exactly as the length says?
    6  data check right?
    7  at most 501 data octets?
    8  does the frame fit the lent output?

   BVLC messages:
   11  at least 4 octets?
   12  begins 81?
   13  function 00 to 0C?
   14  length equals the octets given?
   15  at least one NPDU octet?
   16  four octets of output?

   Ethernet frames:
   21  at least 17 octets?
   22  82 DC at octets 12 and 13?
   23  82 82 03 at octets 14 to 16?
   24  at most 1514 octets?
   25  does the frame fit the lent output?
   61  length field 3 to 1500?
   62  at least that many octets behind octet 13?

   Statistics, patterns, finder, whole reading:
   31  at most 65,535 octets?
   32  do all entries fit the lent list?
   33  place not beyond the end?

   The log:
   47  end within the log, used count within the buffer?
   41  three octets left?
   42  kind 1 to 3, in reading also 11 to 13?
   43  payload length 1 to 1514?
   44  do payload and time fit before the trailer?
   46  does the record fit the buffer, with its time?

   Answers that are no question:
   FE  LEFKANU_NONE: the finder's "none", the log's "start reached"
   FF  LEFKANU_NO_CASE: a number names no rule, form, frame type, function, time or state */
#define LEFKANU_NONE 0xFE
#define LEFKANU_NO_CASE 0xFF

/* The Rust's error for a question: 1 InvalidFrame, 2 CrcError, 0 where the Rust does not ask it. */
uint8_t lefkanu_data_link_error(uint8_t question);

/* The check octets. */

/* The header check of the five octets after the preamble. */
uint8_t lefkanu_calculate_header_crc(uint8_t rule, const uint8_t header[5], uint8_t *crc);

/* The data check of any octets. */
uint8_t lefkanu_crc16_mstp(uint8_t rule, const uint8_t *data, size_t data_octets, uint16_t *crc);

/* The check tables, which controllers burn. Entry i is i after eight steps, each a shift right and, if the bit shifted
   out was 1, an XOR with the rule's constant; nothing is added before or complemented after. A check starts with all
   bits one, changes with each octet as written below, and is complemented at the end. No question. */
#define LEFKANU_TABLE_ENTRIES 256

/* The table of the header check: crc = table[crc ^ octet]. Constant 81 under Annex G, 55 under the house rule. */
uint8_t lefkanu_header_table(uint8_t rule, uint8_t table[256]);

/* The table of the data check: crc = table[(crc ^ octet) & 0xFF] ^ (crc >> 8). Constant 8408 under Annex G, A001 under
   the house rule. */
uint8_t lefkanu_data_table(uint8_t rule, uint16_t table[256]);

/* MS/TP frames. */

/* Reads a frame. header: type, destination, source, header check, 1 if there is a data check else 0, data check or 0,
   place of the data in the frame, how many data octets (8 and 0 where there are none). Questions 1 to 6.
   A written frame with one octet changed is refused; under the house rule it is read where destination or source was
   XORed with 0xAB. */
uint8_t lefkanu_mstp_decode(uint8_t rule, const uint8_t *frame, size_t frame_octets, size_t header[8]);

/* Writes a frame at the front of out, whose rest stays; count: how many octets it has. Questions 7 and 8. */
uint8_t lefkanu_mstp_encode(uint8_t rule, uint8_t frame_type, uint8_t destination, uint8_t source,
                            const uint8_t *data, size_t data_octets, uint8_t *out, size_t out_octets, size_t *count);

/* BVLC messages. */

/* Reads the header in front of a message. header: function, length. Questions 11 to 13. */
uint8_t lefkanu_bvlc_decode(const uint8_t *message, size_t message_octets, size_t header[2]);

/* Writes a header at the front of out, whose rest stays; count: 4. Question 16. */
uint8_t lefkanu_bvlc_encode(uint8_t function, uint16_t length, uint8_t *out, size_t out_octets, size_t *count);

/* What a message carries. carried: LEFKANU_NPDU, its place in the message, how many octets; LEFKANU_TIME_TO_LIVE, the
   seconds, 0; or LEFKANU_NO_NPDU, 0, 0. Questions 11 to 15. */
#define LEFKANU_NPDU 1
#define LEFKANU_TIME_TO_LIVE 2
#define LEFKANU_NO_NPDU 3
uint8_t lefkanu_process_bvlc_message(const uint8_t *message, size_t message_octets, size_t carried[3]);

/* Ethernet frames. */

/* Reads a frame that has 82 DC: both addresses; payload: its place in the frame, how many octets, padding among them.
   Questions 21 to 23. */
uint8_t lefkanu_ethernet_decode(const uint8_t *frame, size_t frame_octets, uint8_t dest_mac[6], uint8_t src_mac[6],
                                size_t payload[2]);

/* Reads a frame of a form. LEFKANU_FORM_ETHER_TYPE: as lefkanu_ethernet_decode does. LEFKANU_FORM_LENGTH: both
   addresses; payload: its place in the frame, how many octets, which is the length field less 3; what is behind them is
   ignored, whatever it is. Questions 21, 24, 61, 62 and 23. */
uint8_t lefkanu_ethernet_decode_form(uint8_t form, const uint8_t *frame, size_t frame_octets, uint8_t dest_mac[6],
                                     uint8_t src_mac[6], size_t payload[2]);

/* The validator of ethernet.rs: 0 where it accepts. A frame of the form LEFKANU_FORM_LENGTH is refused. Questions 21,
   24, 22 and 23. */
uint8_t lefkanu_ethernet_validate(const uint8_t *frame, size_t frame_octets);

/* Writes a frame that has 82 DC at the front of out, whose rest stays: zeros after the payload up to 60 octets; count:
   how many octets it has. Questions 24 and 25. */
uint8_t lefkanu_ethernet_encode(const uint8_t dest_mac[6], const uint8_t src_mac[6], const uint8_t *payload,
                                size_t payload_octets, uint8_t *out, size_t out_octets, size_t *count);

/* Writes a frame of a form. LEFKANU_FORM_ETHER_TYPE: as lefkanu_ethernet_encode does. LEFKANU_FORM_LENGTH: the same,
   but with payload_octets + 3 at octets 12 and 13; what is read back is the payload alone, without the zeros. Questions
   24 and 25. */
uint8_t lefkanu_ethernet_encode_form(uint8_t form, const uint8_t dest_mac[6], const uint8_t src_mac[6],
                                     const uint8_t *payload, size_t payload_octets, uint8_t *out, size_t out_octets,
                                     size_t *count);

/* The validators of validation.rs. result: 1 if valid else 0, link (0 none, 1 BACnet/IP, 2 Ethernet, 3 MS/TP), size, how
   many errors, how many warnings, then seven entries for errors and two for warnings, each a kind and two numbers; an
   unused entry is all 0. docs/QUESTIONS.md has the kinds and their numbers. Warning 3, reason 2: a master sends to a
   slave, and the frame is not a test request (type 3) nor, under Annex G, a data frame (type 5 or 6). Of Ethernet
   frames lefkanu_validate_ethernet_frame knows those with 82 DC: in one of the form LEFKANU_FORM_LENGTH it finds error 7,
   reason 2. */
#define LEFKANU_RESULT_NUMBERS 32
uint8_t lefkanu_validate_mstp_frame(uint8_t rule, const uint8_t *frame, size_t frame_octets, size_t result[32]);
void lefkanu_validate_bacnet_ip_frame(const uint8_t *message, size_t message_octets, size_t result[32]);
void lefkanu_validate_ethernet_frame(const uint8_t *frame, size_t frame_octets, size_t result[32]);

/* By the validator of the link that the octets tell. Of Ethernet frames they tell those with 82 DC: one of the form
   LEFKANU_FORM_LENGTH has link 0 and error 7, reason 4, or is taken for MS/TP or BACnet/IP where it begins 55 FF or 81. */
uint8_t lefkanu_validate_frame(uint8_t rule, const uint8_t *frame, size_t frame_octets, size_t result[32]);

/* Statistics: how many octets have each value. counts: how many are 00, how many 80 or more, and the longest run of one
   value: its octet, its length, and its start, the place of its first octet. Of equals it is the first; without octets
   all are 0. Question 31. */
#define LEFKANU_COUNT_NUMBERS 5
uint8_t lefkanu_calculate_frame_statistics(const uint8_t *frame, size_t frame_octets, uint32_t byte_distribution[256],
                                           size_t counts[5]);

/* Patterns: four numbers for each at the front of out, whose rest stays: pattern (1 padding, 2 text, 3 zeros, 4
   sequence), start, length, octet value; count: how many patterns. Questions 31 and 32. */
uint8_t lefkanu_detect_patterns(const uint8_t *frame, size_t frame_octets, uint32_t *out, size_t out_numbers,
                                size_t *count);

/* Padding in order of arrival: after each octet, the padding at the end of the octets so far. It is the one that
   lefkanu_detect_patterns finds in them; more than 65,535 octets may come. state: 1 if an octet came yet else 0, the
   last octet, and its run: how many octets at the end, one behind another and without index 0, equal the last one,
   however few. Three zeros are the state before the first octet. Numbers are no state where the first is above 1 or the
   second above 255. No question. */
#define LEFKANU_PADDING_NUMBERS 3

/* Puts the state with one octet more in its place. A run of SIZE_MAX, which no octets in memory have, stays. */
uint8_t lefkanu_padding_step(size_t state[3], uint8_t octet);

/* length: how many octets are padding, the run if it is at least 4, else 0. Padding starts so many octets before the end
   of the octets so far, and its value is the last octet. */
uint8_t lefkanu_padding_length(const size_t state[3], size_t *length);

/* lefkanu_validate_frame, the statistics and the patterns together. Questions 31 and 32. */
uint8_t lefkanu_analyze_frame(uint8_t rule, const uint8_t *frame, size_t frame_octets, size_t result[32],
                              uint32_t byte_distribution[256], size_t counts[5], uint32_t *out, size_t out_numbers,
                              size_t *count);

/* Runs of bus octets. */

/* The first acceptable frame that starts at a place or later. report: its place, how many octets; LEFKANU_NONE where
   there is none. Questions 31 and 33. */
uint8_t lefkanu_find_frame(uint8_t rule, const uint8_t *run, size_t run_octets, size_t place, size_t report[2]);

/* How many frames a whole reading finds. Question 31. */
uint8_t lefkanu_count_frames(uint8_t rule, const uint8_t *run, size_t run_octets, size_t *count);

/* Place and octet count of each frame of a whole reading, at the front of out, whose rest stays; count: how many frames.
   Questions 31 and 32. */
uint8_t lefkanu_read_frames(uint8_t rule, const uint8_t *run, size_t run_octets, uint32_t *out, size_t out_numbers,
                            size_t *count);

/* Logs. A record is its payload, its time, if it has one, and its trailer. The time is the second, four octets; the
   trailer is the kind, one octet (1 bus, 2 IP, 3 Ethernet; 11, 12 and 13 for these if there is a time), and the length
   of the payload, two octets. High octets come first. */

/* The record that ends at an end of the log. record: kind (1 to 3, also if there is a time), place of its first octet,
   how many octets its payload has, LEFKANU_SECOND if there is a time else LEFKANU_NO_TIME, the second or 0. The next
   older record ends at the place of its first octet. LEFKANU_NONE where the log's start is reached. Questions 47 and 41
   to 44. If a log that lefkanu_append wrote has lost octets at its front, what is left gives every record that is still
   whole, and then LEFKANU_NONE if no record is torn, else 41 or 44. */
#define LEFKANU_RECORD_NUMBERS 5
uint8_t lefkanu_read_record(const uint8_t *log, size_t log_octets, size_t end, size_t record[5]);

/* Writes a record after the first `used` octets of a buffer, and nothing else; new_used: how many are used now. kind: 1
   to 3. timed: LEFKANU_SECOND, or LEFKANU_NO_TIME, and then second is not looked at. Questions 47, 42, 43 and 46. */
uint8_t lefkanu_append(uint8_t *buffer, size_t buffer_octets, size_t used, uint8_t kind, uint8_t timed, uint32_t second,
                       const uint8_t *payload, size_t payload_octets, size_t *new_used);

#ifdef __cplusplus
}
#endif

#endif
