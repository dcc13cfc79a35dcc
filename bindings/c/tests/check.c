#include "check.h"

#include <stdio.h>
#include <stdlib.h>
#include <string.h>

#define GUARD 64
#define BLOCKS 16

/* Lent memory: guard octets, the octets, guard octets. Of what is only read there is a copy of the whole. */
typedef struct {
    uint8_t *whole;
    uint8_t *copy;
    size_t count;
} block;

static block blocks[BLOCKS];
static size_t lent;
static const char *name_of_case = "";
static int passed, failed;

static void verdict(int right, const char *what)
{
    if (right) {
        passed++;
    } else {
        failed++;
        printf("FAILED %s: %s\n", name_of_case, what);
    }
}

static void *allocate(size_t count)
{
    void *memory = malloc(count);
    if (memory == NULL) {
        printf("no memory for %s\n", name_of_case);
        exit(2);
    }
    return memory;
}

static uint8_t *lend(size_t count)
{
    if (lent == BLOCKS) {
        printf("too much is lent in %s\n", name_of_case);
        exit(2);
    }
    block *new = &blocks[lent++];
    new->whole = allocate(count + 2 * GUARD);
    memset(new->whole, FILL, count + 2 * GUARD);
    new->copy = NULL;
    new->count = count;
    return new->whole + GUARD;
}

/* Keeps a copy of what was lent last. */
static octets only_read(const uint8_t *at)
{
    block *last = &blocks[lent - 1];
    last->copy = allocate(last->count + 2 * GUARD);
    memcpy(last->copy, last->whole, last->count + 2 * GUARD);
    return (octets){at, last->count};
}

static int is_filled(const uint8_t *at, size_t count)
{
    for (size_t i = 0; i < count; i++)
        if (at[i] != FILL)
            return 0;
    return 1;
}

/* Guards stay, and what is only read. */
static int kept(void)
{
    for (size_t i = 0; i < lent; i++) {
        const block *b = &blocks[i];
        if (b->copy != NULL && memcmp(b->whole, b->copy, b->count + 2 * GUARD) != 0)
            return 0;
        if (!is_filled(b->whole, GUARD) || !is_filled(b->whole + GUARD + b->count, GUARD))
            return 0;
    }
    return 1;
}

void begin(const char *name)
{
    while (lent > 0) {
        lent--;
        free(blocks[lent].whole);
        free(blocks[lent].copy);
    }
    name_of_case = name;
}

/* The octets that digits spell, in memory of its own; spaces are passed over. */
static uint8_t *spelled(const char *hex, size_t *count)
{
    uint8_t *at = allocate(strlen(hex) + 1);
    *count = 0;
    for (; *hex != '\0'; hex++) {
        if (*hex == ' ')
            continue;
        char digits[3] = {hex[0], hex[1], '\0'};
        char *rest;
        at[(*count)++] = (uint8_t)strtoul(digits, &rest, 16);
        if (rest != digits + 2) {
            printf("no hexadecimal digits in %s\n", name_of_case);
            exit(2);
        }
        hex++;
    }
    return at;
}

octets given(const char *hex)
{
    size_t count;
    uint8_t *octets = spelled(hex, &count);
    uint8_t *at = lend(count);
    memcpy(at, octets, count);
    free(octets);
    return only_read(at);
}

octets filled(uint8_t octet, size_t count)
{
    uint8_t *at = lend(count);
    memset(at, octet, count);
    return only_read(at);
}

octets joined(octets first, octets second)
{
    uint8_t *at = lend(first.count + second.count);
    memcpy(at, first.at, first.count);
    memcpy(at + first.count, second.at, second.count);
    return only_read(at);
}

const size_t *given_numbers(size_t count, const size_t *numbers)
{
    uint8_t *at = lend(count * sizeof *numbers);
    memcpy(at, numbers, count * sizeof *numbers);
    return (const size_t *)(const void *)only_read(at).at;
}

uint8_t *lend_octets(size_t count)
{
    return lend(count);
}

uint16_t *lend_u16(size_t count)
{
    return (uint16_t *)(void *)lend(count * sizeof(uint16_t));
}

uint32_t *lend_words(size_t count)
{
    return (uint32_t *)(void *)lend(count * sizeof(uint32_t));
}

size_t *lend_numbers(size_t count)
{
    return (size_t *)(void *)lend(count * sizeof(size_t));
}

void expect_answer(uint8_t answer, uint8_t expected)
{
    if (answer != expected)
        printf("answer %u, expected %u\n", answer, expected);
    verdict(answer == expected && kept(), "answer or guards");
}

void expect_octets(const uint8_t *found, const char *hex)
{
    size_t count;
    uint8_t *expected = spelled(hex, &count);
    verdict(memcmp(found, expected, count) == 0 && kept(), "octets");
    free(expected);
}

void expect_all(const uint8_t *found, uint8_t octet, size_t count)
{
    size_t equal = 0;
    while (equal < count && found[equal] == octet)
        equal++;
    verdict(equal == count && kept(), "octets of one value");
}

void expect_words(const uint32_t *found, size_t count, const uint32_t *expected)
{
    verdict(memcmp(found, expected, count * sizeof *found) == 0 && kept(), "32-bit numbers");
}

void expect_numbers(const size_t *found, size_t count, const size_t *expected)
{
    verdict(memcmp(found, expected, count * sizeof *found) == 0 && kept(), "numbers");
}

void expect_refusal(uint8_t answer, uint8_t expected)
{
    int stayed = kept();
    for (size_t i = 0; i < lent; i++)
        if (blocks[i].copy == NULL && !is_filled(blocks[i].whole, blocks[i].count + 2 * GUARD))
            stayed = 0;
    if (answer != expected)
        printf("answer %u, expected %u\n", answer, expected);
    verdict(answer == expected && stayed, "refusal, or lent memory");
}

int outcome(void)
{
    begin("");
    printf("%d passed, %d failed\n", passed, failed);
    return failed;
}
