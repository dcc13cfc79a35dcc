/* Runs of bus octets. */
#include "check.h"

/* An octet, a token, an octet, a frame with data, the beginning of a frame: 25 octets, Annex G rule. */
#define RUN "07 55 FF 00 10 05 00 00 8C 55 55 FF 06 05 10 00 03 DA 01 22 30 10 BD 55 FF"

static void find(uint8_t rule, octets run, size_t place, size_t at, size_t octets_of_frame)
{
    size_t *report = lend_numbers(2);
    expect_answer(lefkanu_find_frame(rule, run.at, run.count, place, report), 0);
    expect_numbers(report, NUMBERS(at, octets_of_frame));
}

static void find_none(uint8_t rule, octets run, size_t place, uint8_t answer)
{
    size_t *report = lend_numbers(2);
    expect_refusal(lefkanu_find_frame(rule, run.at, run.count, place, report), answer);
}

static void test_find(void)
{
    begin("find_frame");
    find(LEFKANU_ANNEX_G, given(RUN), 0, 1, 8);
    begin("find_frame, from its place");
    find(LEFKANU_ANNEX_G, given(RUN), 1, 1, 8);
    begin("find_frame, behind the first");
    find(LEFKANU_ANNEX_G, given(RUN), 2, 10, 13);
    begin("find_frame, house rule");
    find(LEFKANU_HOUSE, given("55 FF 00 10 05 00 00 8C 55 FF 00 10 05 00 00 9A"), 0, 8, 8);

    begin("find_frame, none");
    find_none(LEFKANU_ANNEX_G, given(RUN), 11, LEFKANU_NONE);
    begin("find_frame, none at the end");
    find_none(LEFKANU_ANNEX_G, given(RUN), 25, LEFKANU_NONE);
    begin("find_frame, none by the other rule");
    find_none(LEFKANU_HOUSE, given(RUN), 0, LEFKANU_NONE);
    begin("find_frame, none in nothing");
    find_none(LEFKANU_ANNEX_G, given(""), 0, LEFKANU_NONE);
    begin("find_frame, none in an extended frame");
    find_none(LEFKANU_ANNEX_G, given("55 FF 20 00 00 00 00 0A"), 0, LEFKANU_NONE);
    begin("find_frame, beyond the end");
    find_none(LEFKANU_ANNEX_G, given(RUN), 26, 33);
    begin("find_frame, far beyond the end");
    find_none(LEFKANU_ANNEX_G, given(RUN), SIZE_MAX, 33);
    begin("find_frame, too long");
    find_none(LEFKANU_ANNEX_G, filled(0x55, 65536), 0, 31);
    begin("find_frame, no rule");
    find_none(2, given(RUN), 0, LEFKANU_NO_CASE);
}

static void count_them(uint8_t rule, octets run, size_t expected)
{
    size_t *count = lend_numbers(1);
    expect_answer(lefkanu_count_frames(rule, run.at, run.count, count), 0);
    expect_numbers(count, NUMBERS(expected));
}

static void refuse_count(uint8_t rule, octets run, uint8_t answer)
{
    size_t *count = lend_numbers(1);
    expect_refusal(lefkanu_count_frames(rule, run.at, run.count, count), answer);
}

static void test_count(void)
{
    begin("count_frames");
    count_them(LEFKANU_ANNEX_G, given(RUN), 2);
    begin("count_frames, by the other rule");
    count_them(LEFKANU_HOUSE, given(RUN), 0);
    begin("count_frames, the longest");
    count_them(LEFKANU_ANNEX_G, joined(filled(0x55, 65510), given(RUN)), 2);
    begin("count_frames, too long");
    refuse_count(LEFKANU_ANNEX_G, joined(filled(0x55, 65511), given(RUN)), 31);
    begin("count_frames, no rule");
    refuse_count(2, given(RUN), LEFKANU_NO_CASE);
}

static void refuse_reading(uint8_t rule, octets run, size_t room, uint8_t answer)
{
    uint32_t *out = lend_words(room);
    size_t *count = lend_numbers(1);
    expect_refusal(lefkanu_read_frames(rule, run.at, run.count, out, room, count), answer);
}

static void test_read(void)
{
    begin("read_frames");
    octets run = given(RUN);
    uint32_t *out = lend_words(5);
    size_t *count = lend_numbers(1);
    expect_answer(lefkanu_read_frames(LEFKANU_ANNEX_G, run.at, run.count, out, 5, count), 0);
    expect_words(out, WORDS(1, 8, 10, 13, 0xA5A5A5A5));
    expect_numbers(count, NUMBERS(2));

    begin("read_frames, none and no room");
    run = given(RUN);
    out = lend_words(0);
    count = lend_numbers(1);
    expect_answer(lefkanu_read_frames(LEFKANU_HOUSE, run.at, run.count, out, 0, count), 0);
    expect_numbers(count, NUMBERS(0));

    begin("read_frames, too long");
    refuse_reading(LEFKANU_ANNEX_G, filled(0x55, 65536), 100, 31);
    begin("read_frames, no room");
    refuse_reading(LEFKANU_ANNEX_G, given(RUN), 3, 32);
    begin("read_frames, no rule");
    refuse_reading(2, given(RUN), 100, LEFKANU_NO_CASE);
}

void test_finder(void)
{
    test_find();
    test_count();
    test_read();
}
