/* The validators. */
#include "check.h"

/* The numbers of a result, 0 where nothing is named: its head, errors from number 5 on, warnings from WARNINGS on. */
#define RESULT(...) ((const size_t[LEFKANU_RESULT_NUMBERS]){__VA_ARGS__})
#define WARNINGS [26]

static void mstp(uint8_t rule, octets frame, const size_t *expected)
{
    size_t *result = lend_numbers(LEFKANU_RESULT_NUMBERS);
    expect_answer(lefkanu_validate_mstp_frame(rule, frame.at, frame.count, result), 0);
    expect_numbers(result, LEFKANU_RESULT_NUMBERS, expected);
}

static void ip(octets message, const size_t *expected)
{
    size_t *result = lend_numbers(LEFKANU_RESULT_NUMBERS);
    lefkanu_validate_bacnet_ip_frame(message.at, message.count, result);
    expect_numbers(result, LEFKANU_RESULT_NUMBERS, expected);
}

static void ethernet(octets frame, const size_t *expected)
{
    size_t *result = lend_numbers(LEFKANU_RESULT_NUMBERS);
    lefkanu_validate_ethernet_frame(frame.at, frame.count, result);
    expect_numbers(result, LEFKANU_RESULT_NUMBERS, expected);
}

static void any(uint8_t rule, octets frame, const size_t *expected)
{
    size_t *result = lend_numbers(LEFKANU_RESULT_NUMBERS);
    expect_answer(lefkanu_validate_frame(rule, frame.at, frame.count, result), 0);
    expect_numbers(result, LEFKANU_RESULT_NUMBERS, expected);
}

static void test_mstp_frames(void)
{
    begin("validate_mstp_frame, valid");
    mstp(LEFKANU_ANNEX_G, given("55 FF 00 10 05 00 00 8C"), RESULT(1, 3, 8));
    begin("validate_mstp_frame, header check");
    mstp(LEFKANU_HOUSE, given("55 FF 00 10 05 00 00 8C"), RESULT(0, 3, 8, 1, 0, 4, 0x8C, 0x9A));
    begin("validate_mstp_frame, an extended frame");
    mstp(LEFKANU_ANNEX_G, given("55 FF 20 00 00 00 00 0A"), RESULT(0, 3, 8, 1, 0, 5, 32));
    begin("validate_mstp_frame, too short");
    mstp(LEFKANU_ANNEX_G, given("54"), RESULT(0, 3, 1, 1, 0, 1, 1, 8));

    begin("validate_mstp_frame, seven errors");
    octets front = joined(given("00 05 08 00 FF 01 F6 00"), filled(0, 502));
    mstp(LEFKANU_ANNEX_G, joined(front, given("00 00 00")),
         RESULT(0, 3, 513, 7, 0, 3, 0x55FF, 0x0005, 5, 8, 0, 6, 255, 1, 7, 1, 502, 4, 0x00, 0x2E, 8, 512, 513, 4, 0x0000,
                0x0AFC));

    begin("validate_mstp_frame, two warnings");
    mstp(LEFKANU_HOUSE, given("55 FF 80 80 00 00 00 CE"), RESULT(1, 3, 8, 0, 2, WARNINGS = 3, 1, 128, 3, 2, 0));

    begin("validate_mstp_frame, data to a slave");
    mstp(LEFKANU_ANNEX_G, given("55 FF 05 80 00 00 00 2E"), RESULT(1, 3, 8));
    mstp(LEFKANU_ANNEX_G, given("55 FF 06 FE 7F 00 00 A8"), RESULT(1, 3, 8));
    mstp(LEFKANU_HOUSE, given("55 FF 05 80 00 00 00 8F"), RESULT(1, 3, 8, 0, 1, WARNINGS = 3, 2, 0));
    mstp(LEFKANU_HOUSE, given("55 FF 06 FE 7F 00 00 E0"), RESULT(1, 3, 8, 0, 1, WARNINGS = 3, 2, 0));
    begin("validate_mstp_frame, a test request to a slave");
    mstp(LEFKANU_ANNEX_G, given("55 FF 03 80 00 00 00 3F"), RESULT(1, 3, 8));
    mstp(LEFKANU_HOUSE, given("55 FF 03 80 00 00 00 EE"), RESULT(1, 3, 8));
    begin("validate_mstp_frame, another type to a slave");
    mstp(LEFKANU_ANNEX_G, given("55 FF 07 80 00 00 00 21"), RESULT(1, 3, 8, 0, 1, WARNINGS = 3, 2, 0));

    begin("validate_mstp_frame, no rule");
    octets token = given("55 FF 00 10 05 00 00 8C");
    size_t *result = lend_numbers(LEFKANU_RESULT_NUMBERS);
    expect_refusal(lefkanu_validate_mstp_frame(2, token.at, token.count, result), LEFKANU_NO_CASE);
}

static void test_ip_messages(void)
{
    begin("validate_bacnet_ip_frame, valid");
    ip(given("81 0D 00 04"), RESULT(1, 1, 4));
    begin("validate_bacnet_ip_frame, too short");
    ip(given("81 0D 00"), RESULT(0, 1, 3, 1, 0, 1, 3, 4));
    begin("validate_bacnet_ip_frame, four errors");
    ip(joined(given("82 0E 00 07"), filled(0, 1494)),
       RESULT(0, 1, 1498, 4, 0, 3, 0x81, 0x82, 5, 0x0E, 0, 8, 7, 1498, 2, 1498, 1497));
    begin("validate_bacnet_ip_frame, 0C");
    ip(given("81 0C 00 04"), RESULT(1, 1, 4, 0, 1, WARNINGS = 4, 1, 0));
    begin("validate_bacnet_ip_frame, 08");
    ip(given("81 08 00 04"), RESULT(1, 1, 4, 0, 1, WARNINGS = 4, 2, 0));
}

static void test_ethernet_frames(void)
{
    begin("validate_ethernet_frame, valid");
    ethernet(given("66 77 88 99 AA BB 00 11 22 33 44 55 82 DC 82 82 03"), RESULT(1, 2, 17));
    begin("validate_ethernet_frame, too short");
    ethernet(given(""), RESULT(0, 2, 0, 1, 0, 1, 0, 17));
    begin("validate_ethernet_frame, three errors");
    ethernet(joined(given("66 77 88 99 AA BB 00 11 22 33 44 55 00 0B 82 82 E3"), filled(0, 1498)),
             RESULT(0, 2, 1515, 3, 0, 2, 1515, 1514, 7, 2, 0x000B, 7, 3, 0x8282E3));
    begin("validate_ethernet_frame, two warnings");
    ethernet(joined(given("67 77 88 99 AA BB 00 11 22 33 44 55 82 DC 82 82 03"), filled(0, 43)),
             RESULT(1, 2, 60, 0, 2, WARNINGS = 3, 3, 0, 1, 60, 0));
}

static void test_any_frames(void)
{
    begin("validate_frame, empty");
    any(LEFKANU_ANNEX_G, given(""), RESULT(0, 0, 0, 1, 0, 1, 0, 1));
    begin("validate_frame, undetermined");
    any(LEFKANU_HOUSE, given("55 FE"), RESULT(0, 0, 2, 1, 0, 7, 4, 0));
    begin("validate_frame, MS/TP");
    any(LEFKANU_HOUSE, given("55 FF 00 10 05 00 00 9A"), RESULT(1, 3, 8));
    begin("validate_frame, MS/TP, data to a slave");
    any(LEFKANU_ANNEX_G, given("55 FF 05 80 00 00 00 2E"), RESULT(1, 3, 8));
    any(LEFKANU_HOUSE, given("55 FF 05 80 00 00 00 8F"), RESULT(1, 3, 8, 0, 1, WARNINGS = 3, 2, 0));
    begin("validate_frame, BACnet/IP");
    any(LEFKANU_ANNEX_G, given("81 0B 00 04"), RESULT(1, 1, 4));
    begin("validate_frame, Ethernet");
    any(LEFKANU_ANNEX_G, given("66 77 88 99 AA BB 00 11 22 33 44 55 82 DC 82 82 03"), RESULT(1, 2, 17));

    begin("validate_frame, no rule");
    octets message = given("81 0B 00 04");
    size_t *result = lend_numbers(LEFKANU_RESULT_NUMBERS);
    expect_refusal(lefkanu_validate_frame(0xFF, message.at, message.count, result), LEFKANU_NO_CASE);
}

void test_validation(void)
{
    test_mstp_frames();
    test_ip_messages();
    test_ethernet_frames();
    test_any_frames();
}
