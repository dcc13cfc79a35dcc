/* The version of the layout, the errors of questions, the check octets and the check tables. */
#include "check.h"

#include <string.h>

static void test_layout(void)
{
    begin("layout_version");
    expect_answer(lefkanu_layout_version() == LEFKANU_LAYOUT_VERSION, 1);
}

static void test_errors(void)
{
    begin("data_link_error");
    for (unsigned question = 0; question <= 0xFF; question++) {
        uint8_t expected = 0;
        if ((1 <= question && question <= 7) || (11 <= question && question <= 15)
            || (21 <= question && question <= 24))
            expected = 1;
        if (question == 4 || question == 6)
            expected = 2;
        expect_answer(lefkanu_data_link_error((uint8_t)question), expected);
    }
}

static void test_header_crc(uint8_t rule, const char *header, uint8_t expected)
{
    begin("calculate_header_crc");
    octets five = given(header);
    uint8_t *crc = lend_octets(1);
    expect_answer(lefkanu_calculate_header_crc(rule, five.at, crc), 0);
    expect_all(crc, expected, 1);
}

static void test_data_crc(uint8_t rule, const char *data, uint16_t expected)
{
    begin("crc16_mstp");
    octets any = given(data);
    uint16_t *crc = lend_u16(1);
    expect_answer(lefkanu_crc16_mstp(rule, any.at, any.count, crc), 0);
    expect_answer(*crc == expected, 1);
}

/* A number after eight steps: shift right; if the bit shifted out was 1, XOR the constant. */
static unsigned stepped(unsigned number, unsigned constant)
{
    for (int step = 0; step < 8; step++)
        number = (number >> 1) ^ ((number & 1) == 1 ? constant : 0);
    return number;
}

/* All entries of a table, and two of them by their values. Each entry is written: none equals both fillings. */
static void test_header_table(uint8_t rule, unsigned constant, uint8_t entry_1, uint8_t entry_255)
{
    begin("header_table");
    uint8_t *table = lend_octets(LEFKANU_TABLE_ENTRIES);
    for (int filling = 0x00; filling <= 0xFF; filling += 0xFF) {
        size_t right = 0;
        memset(table, filling, LEFKANU_TABLE_ENTRIES * sizeof *table);
        expect_answer(lefkanu_header_table(rule, table), 0);
        for (unsigned i = 0; i < LEFKANU_TABLE_ENTRIES; i++)
            right += table[i] == stepped(i, constant);
        expect_numbers(&right, NUMBERS(LEFKANU_TABLE_ENTRIES));
        expect_answer(table[1] == entry_1 && table[255] == entry_255, 1);
    }
}

static void test_data_table(uint8_t rule, unsigned constant, uint16_t entry_1, uint16_t entry_255)
{
    begin("data_table");
    uint16_t *table = lend_u16(LEFKANU_TABLE_ENTRIES);
    for (int filling = 0x00; filling <= 0xFF; filling += 0xFF) {
        size_t right = 0;
        memset(table, filling, LEFKANU_TABLE_ENTRIES * sizeof *table);
        expect_answer(lefkanu_data_table(rule, table), 0);
        for (unsigned i = 0; i < LEFKANU_TABLE_ENTRIES; i++)
            right += table[i] == stepped(i, constant);
        expect_numbers(&right, NUMBERS(LEFKANU_TABLE_ENTRIES));
        expect_answer(table[1] == entry_1 && table[255] == entry_255, 1);
    }
}

/* The checks of a frame's header and data, octet by octet through the tables. */
static void test_frame(uint8_t rule, const char *hex)
{
    begin("checks through tables");
    octets frame = given(hex);
    const uint8_t *data = frame.at + 8;
    size_t data_octets = frame.count > 8 ? frame.count - 10 : 0;
    uint8_t *header_table = lend_octets(LEFKANU_TABLE_ENTRIES), *header_crc = lend_octets(1);
    uint16_t *data_table = lend_u16(LEFKANU_TABLE_ENTRIES), *data_crc = lend_u16(1);
    expect_answer(lefkanu_header_table(rule, header_table), 0);
    expect_answer(lefkanu_data_table(rule, data_table), 0);
    expect_answer(lefkanu_calculate_header_crc(rule, frame.at + 2, header_crc), 0);
    expect_answer(lefkanu_crc16_mstp(rule, data, data_octets, data_crc), 0);

    uint8_t header = 0xFF;
    for (size_t i = 2; i < 7; i++)
        header = header_table[header ^ frame.at[i]];
    expect_all(header_crc, (uint8_t)~header, 1);

    uint16_t crc = 0xFFFF;
    for (size_t i = 0; i < data_octets; i++)
        crc = data_table[(crc ^ data[i]) & 0xFF] ^ (crc >> 8);
    crc = (uint16_t)~crc;
    expect_answer(*data_crc == crc, 1);
}

void test_checks(void)
{
    test_layout();
    test_errors();
    test_header_crc(LEFKANU_ANNEX_G, "00 10 05 00 00", 0x8C);
    test_header_crc(LEFKANU_HOUSE, "00 10 05 00 00", 0x9A);
    test_header_crc(LEFKANU_ANNEX_G, "00 10 AE 00 00", 0x0A);
    test_header_crc(LEFKANU_HOUSE, "00 10 AE 00 00", 0x9A);
    test_data_crc(LEFKANU_ANNEX_G, "01 22 30", 0xBD10);
    test_data_crc(LEFKANU_HOUSE, "01 22 30", 0x4BC7);
    test_data_crc(LEFKANU_ANNEX_G, "", 0x0000);
    test_data_crc(LEFKANU_HOUSE, "01 04 00 03 01 0C 0C 00 00 00 01 19 55", 0xFFA4);
    test_header_table(LEFKANU_ANNEX_G, 0x81, 0xFE, 0x55);
    test_header_table(LEFKANU_HOUSE, 0x55, 0x49, 0x38);
    test_data_table(LEFKANU_ANNEX_G, 0x8408, 0x1189, 0x0F78);
    test_data_table(LEFKANU_HOUSE, 0xA001, 0xC0C1, 0x4040);
    for (uint8_t rule = LEFKANU_ANNEX_G; rule <= LEFKANU_HOUSE; rule++) {
        /* Frames of samples/. */
        test_frame(rule, "55 FF 00 10 05 00 00 8C");
        test_frame(rule, "55 FF 00 10 AE 00 00 9A");
        test_frame(rule, "55 FF 05 10 05 00 0D EA 01 04 00 03 01 0C 0C 00 00 00 01 19 55 A4 FF");
        test_frame(rule, "55 FF 06 05 10 00 13 2B 01 00 30 01 0C 0C 00 00 00 01 19 55 3E 44 41 66 66 66 3F 5E 21");
    }
    for (unsigned rule = 2; rule <= 0xFF; rule++) {
        begin("checks without a rule");
        octets five = given("00 10 05 00 00");
        uint8_t *header_crc = lend_octets(1), *header_table = lend_octets(LEFKANU_TABLE_ENTRIES);
        uint16_t *data_crc = lend_u16(1), *data_table = lend_u16(LEFKANU_TABLE_ENTRIES);
        expect_refusal(lefkanu_calculate_header_crc((uint8_t)rule, five.at, header_crc), LEFKANU_NO_CASE);
        expect_refusal(lefkanu_crc16_mstp((uint8_t)rule, five.at, 5, data_crc), LEFKANU_NO_CASE);
        expect_refusal(lefkanu_header_table((uint8_t)rule, header_table), LEFKANU_NO_CASE);
        expect_refusal(lefkanu_data_table((uint8_t)rule, data_table), LEFKANU_NO_CASE);
    }
}
