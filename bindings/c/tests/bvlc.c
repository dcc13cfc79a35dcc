/* BVLC messages. */
#include "check.h"

static void read_header(const char *message, size_t function, size_t length)
{
    begin("bvlc_decode");
    octets m = given(message);
    size_t *header = lend_numbers(2);
    expect_answer(lefkanu_bvlc_decode(m.at, m.count, header), 0);
    expect_numbers(header, NUMBERS(function, length));
}

static void refuse_header(const char *message, uint8_t answer)
{
    begin("bvlc_decode, refused");
    octets m = given(message);
    size_t *header = lend_numbers(2);
    expect_refusal(lefkanu_bvlc_decode(m.at, m.count, header), answer);
}

static void refuse_writing(uint8_t function, size_t room, uint8_t answer)
{
    begin("bvlc_encode, refused");
    uint8_t *out = lend_octets(room);
    size_t *count = lend_numbers(1);
    expect_refusal(lefkanu_bvlc_encode(function, 4, out, room, count), answer);
}

static void carries(const char *message, size_t what, size_t first, size_t second)
{
    begin("process_bvlc_message");
    octets m = given(message);
    size_t *carried = lend_numbers(3);
    expect_answer(lefkanu_process_bvlc_message(m.at, m.count, carried), 0);
    expect_numbers(carried, NUMBERS(what, first, second));
}

static void refuse_message(const char *message, uint8_t answer)
{
    begin("process_bvlc_message, refused");
    octets m = given(message);
    size_t *carried = lend_numbers(3);
    expect_refusal(lefkanu_process_bvlc_message(m.at, m.count, carried), answer);
}

void test_bvlc(void)
{
    read_header("81 00 00 00", 0x00, 0);
    read_header("81 0C FF FE 01", 0x0C, 0xFFFE);
    refuse_header("", 11);
    refuse_header("81 0B 00", 11);
    refuse_header("82 0B 00 04", 12);
    refuse_header("81 0D 00 04", 13);

    for (unsigned function = 0; function <= 0x0C; function++) {
        begin("bvlc_encode");
        uint8_t *out = lend_octets(6);
        size_t *count = lend_numbers(1);
        expect_answer(lefkanu_bvlc_encode((uint8_t)function, 0x1234, out, 6, count), 0);
        expect_octets(out, "81");
        expect_all(out + 1, (uint8_t)function, 1);
        expect_octets(out + 2, "12 34 A5 A5");
        expect_numbers(count, NUMBERS(4));
    }
    refuse_writing(0x0A, 3, 16);
    refuse_writing(0x0A, 0, 16);
    for (unsigned function = 0x0D; function <= 0xFF; function++)
        refuse_writing((uint8_t)function, 6, LEFKANU_NO_CASE);

    carries("81 0A 00 05 01", LEFKANU_NPDU, 4, 1);
    carries("81 0B 00 06 01 20", LEFKANU_NPDU, 4, 2);
    carries("81 04 00 0B C0 A8 01 0A BA C0 01", LEFKANU_NPDU, 10, 1);
    carries("81 05 00 06 01 2C", LEFKANU_TIME_TO_LIVE, 300, 0);
    carries("81 05 00 07 01 2C 00", LEFKANU_NO_NPDU, 0, 0);
    carries("81 09 00 05 01", LEFKANU_NO_NPDU, 0, 0);
    carries("81 00 00 04", LEFKANU_NO_NPDU, 0, 0);
    refuse_message("81 0B 00", 11);
    refuse_message("82 0B 00 05 01", 12);
    refuse_message("81 0D 00 04", 13);
    refuse_message("81 0B 00 06 01", 14);
    refuse_message("81 0B 00 04", 15);
    refuse_message("81 04 00 0A C0 A8 01 0A BA C0", 15);
}
