/* Statistics, patterns, and both with validation. */
#include "check.h"

static void count_octets(octets frame, size_t zeros, size_t high, size_t octet, size_t length, size_t start)
{
    begin("calculate_frame_statistics");
    uint32_t expected[256] = {0};
    for (size_t i = 0; i < frame.count; i++)
        expected[frame.at[i]]++;
    uint32_t *byte_distribution = lend_words(256);
    size_t *counts = lend_numbers(LEFKANU_COUNT_NUMBERS);
    expect_answer(lefkanu_calculate_frame_statistics(frame.at, frame.count, byte_distribution, counts), 0);
    expect_words(byte_distribution, 256, expected);
    expect_numbers(counts, NUMBERS(zeros, high, octet, length, start));
}

static void find_patterns(octets frame, size_t room, size_t patterns, size_t count, const uint32_t *expected)
{
    uint32_t *out = lend_words(room);
    size_t *found = lend_numbers(1);
    expect_answer(lefkanu_detect_patterns(frame.at, frame.count, out, room, found), 0);
    expect_numbers(found, NUMBERS(patterns));
    expect_words(out, count, expected);
    expect_all((const uint8_t *)(out + count), FILL, (room - count) * sizeof *out);
}

static void refuse_patterns(octets frame, size_t room, uint8_t answer)
{
    uint32_t *out = lend_words(room);
    size_t *found = lend_numbers(1);
    expect_refusal(lefkanu_detect_patterns(frame.at, frame.count, out, room, found), answer);
}

static void test_statistics(void)
{
    static const uint8_t frame[] = {0x80, 0x00, 0x7F, 0x41, 0x41, 0xFF, 0x00, 0x00};
    count_octets((octets){frame, sizeof frame}, 3, 2, 0x41, 2, 3);
    count_octets((octets){frame, 0}, 0, 0, 0, 0, 0);
    count_octets((octets){frame, 2}, 1, 1, 0x80, 1, 0);
    count_octets((octets){frame + 5, 3}, 2, 1, 0x00, 2, 1);

    begin("calculate_frame_statistics, the longest");
    octets longest = filled(0xFE, 65535);
    uint32_t *byte_distribution = lend_words(256);
    size_t *counts = lend_numbers(LEFKANU_COUNT_NUMBERS);
    expect_answer(lefkanu_calculate_frame_statistics(longest.at, longest.count, byte_distribution, counts), 0);
    expect_words(byte_distribution + 0xFD, WORDS(0, 65535, 0));
    expect_numbers(counts, NUMBERS(0, 65535, 0xFE, 65535, 0));

    begin("calculate_frame_statistics, refused");
    octets long_one = filled(0xFE, 65536);
    byte_distribution = lend_words(256);
    counts = lend_numbers(LEFKANU_COUNT_NUMBERS);
    expect_refusal(lefkanu_calculate_frame_statistics(long_one.at, long_one.count, byte_distribution, counts), 31);
}

static void test_patterns(void)
{
    begin("detect_patterns, none");
    const uint32_t nothing[1] = {0};
    find_patterns(given(""), 4, 0, 0, nothing);
    begin("detect_patterns, a text");
    find_patterns(filled(0x41, 4), 5, 1, WORDS(2, 0, 4, 0));
    begin("detect_patterns, padding and a text");
    find_patterns(filled(0x41, 5), 8, 2, WORDS(1, 1, 4, 0x41, 2, 0, 5, 0));
    begin("detect_patterns, twelve zeros");
    find_patterns(filled(0, 12), 8, 1, WORDS(1, 1, 11, 0));
    begin("detect_patterns, zeros");
    find_patterns(joined(filled(0, 8), filled(0xFF, 4)), 12, 2, WORDS(1, 8, 4, 0xFF, 3, 0, 0, 0));
    begin("detect_patterns, the sequence");
    find_patterns(given("00 01 02 03 04 05 06 07"), 4, 1, WORDS(4, 0, 0, 0));

    begin("detect_patterns, too long");
    refuse_patterns(filled(0, 65536), 100, 31);
    begin("detect_patterns, too long, no room");
    refuse_patterns(filled(0x41, 65536), 0, 31);
    begin("detect_patterns, no room");
    refuse_patterns(filled(0x41, 4), 3, 32);
    begin("detect_patterns, no room for the second");
    refuse_patterns(filled(0x41, 5), 7, 32);
}

static void refuse_analysis(uint8_t rule, octets frame, size_t room, uint8_t answer)
{
    size_t *result = lend_numbers(LEFKANU_RESULT_NUMBERS), *counts = lend_numbers(LEFKANU_COUNT_NUMBERS);
    size_t *count = lend_numbers(1);
    uint32_t *byte_distribution = lend_words(256), *out = lend_words(room);
    expect_refusal(lefkanu_analyze_frame(rule, frame.at, frame.count, result, byte_distribution, counts, out, room,
                                         count),
                   answer);
}

/* The findings of an analysis. */
static void expect_findings(uint8_t rule, octets frame, const size_t *expected)
{
    size_t *result = lend_numbers(LEFKANU_RESULT_NUMBERS), *counts = lend_numbers(LEFKANU_COUNT_NUMBERS);
    size_t *count = lend_numbers(1);
    uint32_t *byte_distribution = lend_words(256), *out = lend_words(8);
    expect_answer(lefkanu_analyze_frame(rule, frame.at, frame.count, result, byte_distribution, counts, out, 8, count),
                  0);
    expect_numbers(result, LEFKANU_RESULT_NUMBERS, expected);
}

static void test_analysis_of_frames(void)
{
    begin("analyze_frame");
    octets frame = given("81 0B 00 09 41 41 41 41 41");
    size_t *result = lend_numbers(LEFKANU_RESULT_NUMBERS), *counts = lend_numbers(LEFKANU_COUNT_NUMBERS);
    size_t *count = lend_numbers(1);
    uint32_t *byte_distribution = lend_words(256), *out = lend_words(9);
    expect_answer(lefkanu_analyze_frame(LEFKANU_HOUSE, frame.at, frame.count, result, byte_distribution, counts, out, 9,
                                        count),
                  0);
    const size_t valid[LEFKANU_RESULT_NUMBERS] = {1, 1, 9};
    expect_numbers(result, LEFKANU_RESULT_NUMBERS, valid);
    uint32_t expected[256] = {[0x81] = 1, [0x0B] = 1, [0x00] = 1, [0x09] = 1, [0x41] = 5};
    expect_words(byte_distribution, 256, expected);
    expect_numbers(counts, NUMBERS(1, 1, 0x41, 5, 4));
    expect_numbers(count, NUMBERS(2));
    expect_words(out, WORDS(1, 4, 5, 0x41, 2, 4, 5, 0, 0xA5A5A5A5));

    begin("analyze_frame, data to a slave");
    const size_t clean[LEFKANU_RESULT_NUMBERS] = {1, 3, 8};
    expect_findings(LEFKANU_ANNEX_G, given("55 FF 05 80 00 00 00 2E"), clean);
    const size_t warned[LEFKANU_RESULT_NUMBERS] = {1, 3, 8, 0, 1, [26] = 3, 2, 0};
    expect_findings(LEFKANU_HOUSE, given("55 FF 05 80 00 00 00 8F"), warned);

    begin("analyze_frame, too long");
    refuse_analysis(LEFKANU_ANNEX_G, filled(0x55, 65536), 100, 31);
    begin("analyze_frame, no room");
    refuse_analysis(LEFKANU_ANNEX_G, filled(0x41, 4), 3, 32);
    begin("analyze_frame, no rule");
    refuse_analysis(2, filled(0x41, 4), 100, LEFKANU_NO_CASE);
}

void test_analysis(void)
{
    test_statistics();
    test_patterns();
    test_analysis_of_frames();
}
