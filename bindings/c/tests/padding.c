/* Padding in order of arrival. */
#include "check.h"

/* Numbers of the list that is lent for the patterns of a frame. */
#define ROOM 64

/* A state to be written to. */
static size_t *lend_state(size_t started, size_t last, size_t run)
{
    size_t *state = lend_numbers(LEFKANU_PADDING_NUMBERS);
    state[0] = started;
    state[1] = last;
    state[2] = run;
    return state;
}

static void step(size_t started, size_t last, size_t run, uint8_t octet, size_t expected)
{
    begin("padding_step");
    size_t *state = lend_state(started, last, run);
    expect_answer(lefkanu_padding_step(state, octet), 0);
    expect_numbers(state, NUMBERS(1, octet, expected));
}

static void measure(size_t started, size_t last, size_t run, size_t expected)
{
    begin("padding_length");
    const size_t *state = given_numbers(NUMBERS(started, last, run));
    size_t *length = lend_numbers(1);
    expect_answer(lefkanu_padding_length(state, length), 0);
    expect_numbers(length, NUMBERS(expected));
}

/* Numbers that are no state, refused by both functions. */
static void refuse(size_t started, size_t last, size_t run)
{
    begin("padding_step, no state");
    size_t *lent = lend_state(started, last, run);
    expect_answer(lefkanu_padding_step(lent, 0x41), LEFKANU_NO_CASE);
    expect_numbers(lent, NUMBERS(started, last, run));

    begin("padding_length, no state");
    const size_t *state = given_numbers(NUMBERS(started, last, run));
    size_t *length = lend_numbers(1);
    expect_refusal(lefkanu_padding_length(state, length), LEFKANU_NO_CASE);
}

/* An octet more: the state and how many octets are padding. */
static void arrive(size_t *state, uint8_t octet, size_t run, size_t padding)
{
    size_t length = SIZE_MAX;
    expect_answer(lefkanu_padding_step(state, octet), 0);
    expect_numbers(state, NUMBERS(1, octet, run));
    expect_answer(lefkanu_padding_length(state, &length), 0);
    expect_numbers(&length, NUMBERS(padding));
}

/* A frame octet by octet: at every front the padding is that of lefkanu_detect_patterns, whose first entry it is. */
static void feed(octets frame)
{
    size_t *state = lend_state(0, 0, 0), *length = lend_numbers(1), *count = lend_numbers(1);
    uint32_t *out = lend_words(ROOM);
    for (size_t front = 0; front <= frame.count; front++) {
        if (front > 0)
            expect_answer(lefkanu_padding_step(state, frame.at[front - 1]), 0);
        expect_answer(lefkanu_padding_length(state, length), 0);
        expect_answer(lefkanu_detect_patterns(frame.at, front, out, ROOM, count), 0);
        if (*count > 0 && out[0] == 1)
            expect_words(out, WORDS(1, front - *length, *length, state[1]));
        else
            expect_numbers(length, NUMBERS(0));
    }
}

static void test_states(void)
{
    step(0, 0, 0, 0x41, 0);
    step(0, 0, 0, 0x00, 0);
    step(1, 0x41, 0, 0x41, 1);
    step(1, 0x41, 1, 0x41, 2);
    step(1, 0x41, 3, 0x41, 4);
    step(1, 0x41, 0, 0x42, 1);
    step(1, 0x41, 9, 0x42, 1);
    step(1, 0x00, 0, 0xFF, 1);
    for (unsigned octet = 0; octet <= 0xFF; octet++) {
        step(1, octet, 5, (uint8_t)octet, 6);
        step(1, octet, 5, (uint8_t)(octet ^ 0x01), 1);
        step(1, octet, 5, (uint8_t)(octet ^ 0x80), 1);
    }
    /* States made by hand, which no octets give. */
    step(0, 7, 9, 8, 0);
    step(0, 8, 9, 8, 0);
    step(0, 0, SIZE_MAX, 0, 0);
    step(1, 0x41, 0xFFFFFFFF, 0x41, 0x100000000);
    step(1, 0x41, SIZE_MAX - 1, 0x41, SIZE_MAX);
    step(1, 0x41, SIZE_MAX, 0x41, SIZE_MAX);
    step(1, 0x41, SIZE_MAX, 0x42, 1);
}

static void test_lengths(void)
{
    measure(0, 0, 0, 0);
    measure(1, 0x41, 0, 0);
    measure(1, 0x41, 1, 0);
    measure(1, 0x41, 3, 0);
    measure(1, 0x41, 4, 4);
    measure(1, 0x41, 5, 5);
    measure(1, 0x00, 65535, 65535);
    measure(1, 0xFF, 65536, 65536);
    /* States made by hand, which no octets give. */
    measure(0, 7, 9, 9);
    measure(0, 255, 3, 0);
    measure(1, 0x41, 0x100000000, 0x100000000);
    measure(1, 0x41, 0x100000003, 0x100000003);
    measure(1, 0x41, SIZE_MAX, SIZE_MAX);
}

static void test_refusals(void)
{
    refuse(2, 0, 0);
    refuse(2, 0x41, 5);
    refuse(0, 256, 0);
    refuse(1, 256, 5);
    refuse(2, 256, 5);
    refuse(SIZE_MAX, 0x41, 5);
    refuse(1, SIZE_MAX, 5);
    refuse(SIZE_MAX, SIZE_MAX, 0);
    refuse(SIZE_MAX, SIZE_MAX, SIZE_MAX);
    /* Of these the lowest octet, or half, would be a state. */
    refuse(0x100, 0x41, 5);
    refuse(0x100000001, 0x41, 5);
    refuse(1, 0x141, 5);
    refuse(1, 0x100000041, 5);
}

static void test_arrival(void)
{
    begin("padding, index 0 is not counted");
    size_t *state = lend_state(0, 0, 0);
    arrive(state, 0x41, 0, 0);
    arrive(state, 0x41, 1, 0);
    arrive(state, 0x41, 2, 0);
    arrive(state, 0x41, 3, 0);
    arrive(state, 0x41, 4, 4);

    begin("padding, a run starts anew at 1");
    state = lend_state(1, 0x41, 4);
    arrive(state, 0x42, 1, 0);
    arrive(state, 0x42, 2, 0);
    arrive(state, 0x41, 1, 0);
    arrive(state, 0x41, 2, 0);
    arrive(state, 0x41, 3, 0);
    arrive(state, 0x41, 4, 4);
    arrive(state, 0x41, 5, 5);
    arrive(state, 0x00, 1, 0);

    begin("padding, another octet at index 1");
    state = lend_state(0, 0, 0);
    arrive(state, 0x00, 0, 0);
    arrive(state, 0xFF, 1, 0);
    arrive(state, 0xFF, 2, 0);
    arrive(state, 0xFF, 3, 0);
    arrive(state, 0xFF, 4, 4);
}

static void test_fronts(void)
{
    begin("padding at every front, no octets");
    feed(given(""));
    begin("padding at every front, zeros");
    feed(filled(0x00, 12));
    begin("padding at every front, a text");
    feed(filled(0x41, 12));
    begin("padding at every front, zeros and others");
    feed(joined(filled(0x00, 8), filled(0xFF, 8)));
    begin("padding at every front, the sequence");
    feed(given("00 01 02 03 04 05 06 07 07 07 07 07 06 06 06 06"));
    begin("padding at every front, three and four times");
    feed(given("01 FF FF FF 01 FF FF FF FF 01 01 01 01 FF 01 01 01 01 01"));
    begin("padding at every front, 255 and 256 octets");
    feed(joined(filled(0x55, 255), filled(0xAA, 258)));

    /* Frames of samples/. */
    begin("padding at every front, a token");
    feed(given("55 FF 00 10 05 00 00 8C FF"));
    begin("padding at every front, the value asked for");
    feed(given("55 FF 06 05 10 00 13 2B 01 00 30 01 0C 0C 00 00 00 01 19 55 3E 44 41 66 66 66 3F 5E 21"));
    begin("padding at every front, Who-Is to all");
    feed(given("81 0B 00 0C 01 20 FF FF 00 FF 10 08"));
    begin("padding at every front, Who-Is to all, padded to 60 octets");
    feed(joined(given("FF FF FF FF FF FF 00 11 22 33 44 55 82 DC 82 82 03 01 20 FF FF 00 FF 10 08"), filled(0x00, 35)));
    begin("padding at every front, an ARP request");
    feed(joined(given("FF FF FF FF FF FF 00 11 22 33 44 55 08 06 00 01 08 00 06 04 00 01 00 11 22 33 44 55 C0 A8 01 0A "
                      "00 00 00 00 00 00 C0 A8 01 01"),
                filled(0x00, 18)));
}

/* Zeros one by one: all but the first are padding. */
static void feed_zeros(octets zeros)
{
    size_t *state = lend_state(0, 0, 0), *length = lend_numbers(1);
    uint8_t answers = 0;
    for (size_t i = 0; i < zeros.count; i++)
        answers |= lefkanu_padding_step(state, zeros.at[i]);
    expect_answer(answers, 0);
    expect_numbers(state, NUMBERS(1, 0x00, zeros.count - 1));
    expect_answer(lefkanu_padding_length(state, length), 0);
    expect_numbers(length, NUMBERS(zeros.count - 1));
}

/* As many octets as lefkanu_detect_patterns takes, and more. */
static void test_many(void)
{
    begin("padding, 65535 octets");
    octets zeros = filled(0x00, 65535);
    uint32_t *out = lend_words(4);
    size_t *count = lend_numbers(1);
    expect_answer(lefkanu_detect_patterns(zeros.at, zeros.count, out, 4, count), 0);
    expect_words(out, WORDS(1, 1, 65534, 0x00));
    feed_zeros(zeros);

    begin("padding, 65536 octets");
    zeros = filled(0x00, 65536);
    out = lend_words(4);
    count = lend_numbers(1);
    expect_refusal(lefkanu_detect_patterns(zeros.at, zeros.count, out, 4, count), 31);
    feed_zeros(zeros);

    begin("padding, 200000 octets");
    feed_zeros(filled(0x00, 200000));
}

void test_padding(void)
{
    test_states();
    test_lengths();
    test_refusals();
    test_arrival();
    test_fronts();
    test_many();
}
