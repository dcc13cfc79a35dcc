/* What the tests share: lent memory with guard octets around it, and expectations. */
#ifndef CHECK_H
#define CHECK_H

#include "../lefkanu.h"

#include <stddef.h>
#include <stdint.h>

/* What lent memory is filled with. */
#define FILL 0xA5

/* Octets that are only read. */
typedef struct {
    const uint8_t *at;
    size_t count;
} octets;

/* Starts a case: what was lent before is given back. */
void begin(const char *name);

/* The octets that hexadecimal digits spell, between guards. */
octets given(const char *hex);

/* So many octets of one value, between guards. */
octets filled(uint8_t octet, size_t count);

/* Octets behind others, between guards. */
octets joined(octets first, octets second);

/* Numbers that are only read, between guards. */
const size_t *given_numbers(size_t count, const size_t *numbers);

/* Memory to be written to, filled, between guards. */
uint8_t *lend_octets(size_t count);
uint16_t *lend_u16(size_t count);
uint32_t *lend_words(size_t count);
size_t *lend_numbers(size_t count);

/* The case's expectations; each also looks at all guards and at the octets that are only read. */
void expect_answer(uint8_t answer, uint8_t expected);
void expect_octets(const uint8_t *found, const char *hex);
void expect_all(const uint8_t *found, uint8_t octet, size_t count);
void expect_words(const uint32_t *found, size_t count, const uint32_t *expected);
void expect_numbers(const size_t *found, size_t count, const size_t *expected);

/* Refused with this answer, and all that was lent stays. */
void expect_refusal(uint8_t answer, uint8_t expected);

/* Numbers as an array, and how many. */
#define NUMBERS(...) sizeof((size_t[]){__VA_ARGS__}) / sizeof(size_t), (const size_t[]){__VA_ARGS__}
#define WORDS(...) sizeof((uint32_t[]){__VA_ARGS__}) / sizeof(uint32_t), (const uint32_t[]){__VA_ARGS__}

/* Prints 'N passed, M failed' and answers M. */
int outcome(void);

void test_checks(void);
void test_mstp(void);
void test_bvlc(void);
void test_ethernet(void);
void test_validation(void);
void test_analysis(void);
void test_padding(void);
void test_finder(void);
void test_log(void);

#endif
