/* Logs. */
#include "check.h"

/* Two records: two octets of the bus, one of Ethernet. */
#define LOG "AA BB 01 00 02 CC 03 00 01"

/* The same with a time, but for the older one. */
#define TIMED "AA BB 01 00 02 CC 01 02 03 04 0D 00 01"

static void read_back(const char *log, size_t end, size_t kind, size_t start, size_t octets_of_record)
{
    begin("read_record");
    octets l = given(log);
    size_t *record = lend_numbers(LEFKANU_RECORD_NUMBERS);
    expect_answer(lefkanu_read_record(l.at, l.count, end, record), 0);
    expect_numbers(record, NUMBERS(kind, start, octets_of_record, LEFKANU_NO_TIME, 0));
}

static void read_time(const char *log, size_t kind, size_t start, size_t octets_of_record, size_t second)
{
    begin("read_record, with a time");
    octets l = given(log);
    size_t *record = lend_numbers(LEFKANU_RECORD_NUMBERS);
    expect_answer(lefkanu_read_record(l.at, l.count, l.count, record), 0);
    expect_numbers(record, NUMBERS(kind, start, octets_of_record, LEFKANU_SECOND, second));
}

static void refuse_reading(const char *log, size_t end, uint8_t answer)
{
    begin("read_record, refused");
    octets l = given(log);
    size_t *record = lend_numbers(LEFKANU_RECORD_NUMBERS);
    expect_refusal(lefkanu_read_record(l.at, l.count, end, record), answer);
}

/* TIMED without its first octets: how many of its records are still whole, and the answer after them. */
static void read_torn(size_t lost, size_t whole, uint8_t last)
{
    static const char log[] = TIMED " ";
    const char *rest = log + 3 * lost;
    size_t ends[] = {13 - lost, 5 - lost, 0};
    if (whole > 0) read_time(rest, 3, 5 - lost, 1, 0x01020304);
    if (whole > 1) read_back(rest, ends[1], 1, 0, 2);
    refuse_reading(rest, ends[whole], last);
}

/* By this number of a time. */
static void refuse_timed(uint8_t timed, size_t room, size_t used, uint8_t kind, size_t payload_octets, uint8_t answer)
{
    begin("append, refused");
    octets payload = filled(0xCC, payload_octets);
    uint8_t *buffer = lend_octets(room);
    size_t *new_used = lend_numbers(1);
    expect_refusal(lefkanu_append(buffer, room, used, kind, timed, 7, payload.at, payload.count, new_used), answer);
}

/* Without a time, and with one. */
static void refuse_append(size_t room, size_t used, uint8_t kind, size_t payload_octets, uint8_t answer)
{
    refuse_timed(LEFKANU_NO_TIME, room, used, kind, payload_octets, answer);
    refuse_timed(LEFKANU_SECOND, room, used, kind, payload_octets, answer);
}

/* Appends two octets to an empty log, and reads them back. */
static void append_and_read(uint8_t kind, uint8_t timed, uint32_t second, const char *log)
{
    begin("append, and read_record");
    octets expected = given(log), payload = given("81 06");
    uint8_t *buffer = lend_octets(expected.count);
    size_t *new_used = lend_numbers(1), *record = lend_numbers(LEFKANU_RECORD_NUMBERS);
    expect_answer(lefkanu_append(buffer, expected.count, 0, kind, timed, second, payload.at, 2, new_used), 0);
    expect_octets(buffer, log);
    expect_numbers(new_used, NUMBERS(expected.count));
    expect_answer(lefkanu_read_record(buffer, expected.count, *new_used, record), 0);
    expect_numbers(record, NUMBERS(kind, 0, 2, timed, timed == LEFKANU_SECOND ? second : 0));
}

static void test_read(void)
{
    read_back(LOG, 9, 3, 5, 1);
    read_back(LOG, 5, 1, 0, 2);
    read_back("AA 02 00 01", 4, 2, 0, 1);
    read_back(TIMED, 5, 1, 0, 2);
    read_time(TIMED, 3, 5, 1, 0x01020304);
    read_time("AA BB 00 00 00 00 0B 00 02", 1, 0, 2, 0);
    read_time("AA BB FF FF FF FF 0C 00 01", 2, 1, 1, 4294967295);
    refuse_reading(LOG, 0, LEFKANU_NONE);
    refuse_reading("", 0, LEFKANU_NONE);
    refuse_reading(LOG, 10, 47);
    refuse_reading("", SIZE_MAX, 47);
    refuse_reading(LOG, 1, 41);
    refuse_reading(LOG, 2, 41);
    refuse_reading(LOG, 3, 42);
    refuse_reading("AA 04 00 01", 4, 42);
    refuse_reading("AA 00 00 00 00 0A 00 01", 8, 42);
    refuse_reading("AA 00 00 00 00 0E 00 01", 8, 42);
    refuse_reading("AA 01 00 00", 4, 43);
    refuse_reading("AA 01 05 EB", 4, 43);
    refuse_reading("AA 00 00 00 00 0B 00 00", 8, 43);
    refuse_reading("AA 00 00 00 00 0B 05 EB", 8, 43);
    refuse_reading("AA 01 00 02", 4, 44);
    refuse_reading("AA 01 05 EA", 4, 44);
    refuse_reading("AA 00 00 00 00 0B 00 02", 8, 44);
    refuse_reading("00 00 00 00 0B 00 01", 7, 44);
    refuse_reading("00 0B 00 01", 4, 44);
    refuse_reading("0B 00 01", 3, 44);
}

static void test_torn(void)
{
    read_torn(0, 2, LEFKANU_NONE);
    for (size_t lost = 1; lost <= 2; lost++) read_torn(lost, 1, 44);
    for (size_t lost = 3; lost <= 4; lost++) read_torn(lost, 1, 41);
    read_torn(5, 1, LEFKANU_NONE);
    for (size_t lost = 6; lost <= 10; lost++) read_torn(lost, 0, 44);
    for (size_t lost = 11; lost <= 12; lost++) read_torn(lost, 0, 41);
    read_torn(13, 0, LEFKANU_NONE);
}

static void test_append(void)
{
    begin("append");
    octets payload = given("81 06");
    uint8_t *buffer = lend_octets(13);
    size_t *new_used = lend_numbers(1);
    expect_answer(lefkanu_append(buffer, 13, 2, 2, LEFKANU_NO_TIME, 7, payload.at, payload.count, new_used), 0);
    expect_octets(buffer, "A5 A5 81 06 02 00 02 A5 A5 A5 A5 A5 A5");
    expect_numbers(new_used, NUMBERS(7));
    expect_answer(lefkanu_append(buffer, 13, 2, 2, LEFKANU_SECOND, 7, payload.at, payload.count, new_used), 0);
    expect_octets(buffer, "A5 A5 81 06 00 00 00 07 0C 00 02 A5 A5");
    expect_numbers(new_used, NUMBERS(11));

    begin("append, the longest");
    payload = filled(0xCC, 1514);
    buffer = lend_octets(1517);
    new_used = lend_numbers(1);
    expect_answer(lefkanu_append(buffer, 1517, 0, 1, LEFKANU_NO_TIME, 0, payload.at, payload.count, new_used), 0);
    expect_all(buffer, 0xCC, 1514);
    expect_octets(buffer + 1514, "01 05 EA");
    expect_numbers(new_used, NUMBERS(1517));

    begin("append, the longest with a time");
    payload = filled(0xCC, 1514);
    buffer = lend_octets(1521);
    new_used = lend_numbers(1);
    expect_answer(lefkanu_append(buffer, 1521, 0, 1, LEFKANU_SECOND, 1, payload.at, payload.count, new_used), 0);
    expect_all(buffer, 0xCC, 1514);
    expect_octets(buffer + 1514, "00 00 00 01 0B 05 EA");
    expect_numbers(new_used, NUMBERS(1521));
    size_t *record = lend_numbers(LEFKANU_RECORD_NUMBERS);
    expect_answer(lefkanu_read_record(buffer, 1521, 1521, record), 0);
    expect_numbers(record, NUMBERS(1, 0, 1514, LEFKANU_SECOND, 1));

    append_and_read(1, LEFKANU_NO_TIME, 0, "81 06 01 00 02");
    append_and_read(3, LEFKANU_NO_TIME, 7, "81 06 03 00 02");
    append_and_read(1, LEFKANU_SECOND, 0, "81 06 00 00 00 00 0B 00 02");
    append_and_read(2, LEFKANU_SECOND, 0x01020304, "81 06 01 02 03 04 0C 00 02");
    append_and_read(3, LEFKANU_SECOND, 4294967295, "81 06 FF FF FF FF 0D 00 02");

    refuse_append(10, 11, 1, 1, 47);
    refuse_append(0, SIZE_MAX, 1, 1, 47);
    refuse_append(10, 0, 0, 1, 42);
    refuse_append(10, 0, 4, 1, 42);
    refuse_append(10, 0, 11, 1, 42);
    refuse_append(10, 0, 13, 1, 42);
    refuse_append(10, 0, 1, 0, 43);
    refuse_append(2000, 0, 1, 1515, 43);
    refuse_append(10, 0, 3, 8, 46);
    refuse_append(10, 7, 3, 1, 46);
    refuse_append(0, 0, 3, 1, 46);
    /* The four octets of the time count. */
    refuse_timed(LEFKANU_SECOND, 10, 0, 3, 4, 46);
    refuse_timed(LEFKANU_SECOND, 10, 3, 3, 1, 46);
    refuse_timed(LEFKANU_SECOND, 1520, 0, 3, 1514, 46);
    /* No time, before any question. */
    refuse_timed(2, 10, 0, 1, 1, LEFKANU_NO_CASE);
    refuse_timed(0xFF, 10, 0, 1, 1, LEFKANU_NO_CASE);
    refuse_timed(2, 10, 11, 0, 0, LEFKANU_NO_CASE);
}

void test_log(void)
{
    test_read();
    test_torn();
    test_append();
}
