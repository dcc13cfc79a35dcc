/* MS/TP frames. */
#include "check.h"

static void refuse_reading(uint8_t rule, const char *frame, uint8_t answer)
{
    begin("mstp_decode, refused");
    octets f = given(frame);
    size_t *header = lend_numbers(8);
    expect_refusal(lefkanu_mstp_decode(rule, f.at, f.count, header), answer);
}

static void refuse_writing(uint8_t rule, uint8_t type, size_t data_octets, size_t room, uint8_t answer)
{
    begin("mstp_encode, refused");
    octets data = filled(0x41, data_octets);
    uint8_t *out = lend_octets(room);
    size_t *count = lend_numbers(1);
    expect_refusal(lefkanu_mstp_encode(rule, type, 16, 5, data.at, data.count, out, room, count), answer);
}

static void test_reading(void)
{
    begin("mstp_decode, a token");
    octets token = given("55 FF 00 10 05 00 00 8C");
    size_t *header = lend_numbers(8);
    expect_answer(lefkanu_mstp_decode(LEFKANU_ANNEX_G, token.at, token.count, header), 0);
    expect_numbers(header, NUMBERS(0, 16, 5, 0x8C, 0, 0, 8, 0));

    begin("mstp_decode, data, house rule");
    octets answer = given("55 FF 06 05 10 00 03 E0 01 22 30 C7 4B");
    header = lend_numbers(8);
    expect_answer(lefkanu_mstp_decode(LEFKANU_HOUSE, answer.at, answer.count, header), 0);
    expect_numbers(header, NUMBERS(6, 5, 16, 0xE0, 1, 0x4BC7, 8, 3));

    begin("mstp_decode, 502 data octets");
    octets front = joined(given("55 FF 00 00 00 01 F6 03"), filled(0, 502));
    octets frame = joined(front, given("FC 0A"));
    header = lend_numbers(8);
    expect_answer(lefkanu_mstp_decode(LEFKANU_ANNEX_G, frame.at, frame.count, header), 0);
    expect_numbers(header, NUMBERS(0, 0, 0, 0x03, 1, 0x0AFC, 8, 502));

    begin("mstp_decode, an address XORed with AB, house rule");
    octets changed = given("55 FF 00 10 AE 00 00 9A");
    header = lend_numbers(8);
    expect_answer(lefkanu_mstp_decode(LEFKANU_HOUSE, changed.at, changed.count, header), 0);
    expect_numbers(header, NUMBERS(0, 16, 174, 0x9A, 0, 0, 8, 0));

    refuse_reading(LEFKANU_ANNEX_G, "", 1);
    refuse_reading(LEFKANU_ANNEX_G, "55 FF 00 10 05 00 00", 1);
    refuse_reading(LEFKANU_ANNEX_G, "54 FF 00 10 05 00 00 8C", 2);
    refuse_reading(LEFKANU_ANNEX_G, "55 FE 00 10 05 00 00 8C", 2);
    refuse_reading(LEFKANU_ANNEX_G, "55 FF 80 00 00 00 00 3F", 3);
    refuse_reading(LEFKANU_ANNEX_G, "55 FF 20 00 00 00 00 0A", 3);
    refuse_reading(LEFKANU_ANNEX_G, "55 FF 00 11 05 00 00 8C", 4);
    refuse_reading(LEFKANU_HOUSE, "55 FF 00 10 05 00 00 8C", 4);
    refuse_reading(LEFKANU_ANNEX_G, "55 FF 00 10 05 00 00 8C FF", 5);
    refuse_reading(LEFKANU_ANNEX_G, "55 FF 06 05 10 00 03 DA 01 22 31 10 BD", 6);
    refuse_reading(2, "55 FF 00 10 05 00 00 8C", LEFKANU_NO_CASE);
    refuse_reading(0xFF, "", LEFKANU_NO_CASE);
}

static void test_writing(void)
{
    begin("mstp_encode, a token");
    octets none = given("");
    uint8_t *out = lend_octets(10);
    size_t *count = lend_numbers(1);
    expect_answer(lefkanu_mstp_encode(LEFKANU_HOUSE, 0, 16, 5, none.at, 0, out, 10, count), 0);
    expect_octets(out, "55 FF 00 10 05 00 00 9A A5 A5");
    expect_numbers(count, NUMBERS(8));

    begin("mstp_encode, data");
    octets data = given("01 22 30");
    out = lend_octets(13);
    count = lend_numbers(1);
    expect_answer(lefkanu_mstp_encode(LEFKANU_ANNEX_G, 6, 5, 16, data.at, data.count, out, 13, count), 0);
    expect_octets(out, "55 FF 06 05 10 00 03 DA 01 22 30 10 BD");
    expect_numbers(count, NUMBERS(13));

    begin("mstp_encode, 501 data octets");
    data = filled(0x41, 501);
    out = lend_octets(512);
    count = lend_numbers(1);
    expect_answer(lefkanu_mstp_encode(LEFKANU_ANNEX_G, 6, 5, 16, data.at, data.count, out, 512, count), 0);
    expect_octets(out, "55 FF 06 05 10 01 F5 23");
    expect_all(out + 8, 0x41, 501);
    expect_octets(out + 509, "1D 0F A5");
    expect_numbers(count, NUMBERS(511));

    refuse_writing(LEFKANU_ANNEX_G, 0, 502, 600, 7);
    refuse_writing(LEFKANU_HOUSE, 7, 502, 0, 7);
    refuse_writing(LEFKANU_ANNEX_G, 0, 0, 7, 8);
    refuse_writing(LEFKANU_HOUSE, 0, 3, 12, 8);
    refuse_writing(LEFKANU_HOUSE, 0, 0, 0, 8);
    refuse_writing(2, 0, 0, 10, LEFKANU_NO_CASE);
    for (unsigned type = 8; type <= 0xFF; type++)
        refuse_writing(LEFKANU_ANNEX_G, (uint8_t)type, 0, 10, LEFKANU_NO_CASE);
}

void test_mstp(void)
{
    test_reading();
    test_writing();
}
