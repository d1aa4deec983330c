/* What the C test expects, and how it is said. */
#ifndef EXPECT_H
#define EXPECT_H
#include "ullimaqsu.h"
int printf(const char *, ...);

static int failures;

static void expect(int holds, const char *what) {
    if (!holds) failures++, printf("C test: FAILED: %s\n", what);
}

/* The k-th number of an answer. */
static uint64_t number(const uint8_t *answer, int k) {
    uint64_t n = 0;
    for (int i = 7; i >= 0; i--) n = n << 8 | answer[8 * k + i];
    return n;
}

static int answers(const uint8_t *answer, const uint64_t *numbers) {
    for (int k = 0; k < 4; k++)
        if (number(answer, k) != numbers[k]) return 0;
    return 1;
}

/* What memory that is not written holds. */
#define JUNK 0xee

static void fill(uint8_t *at, size_t len) {
    for (size_t k = 0; k < len; k++) at[k] = JUNK;
}

static int stays(const uint8_t *at, size_t len) {
    for (size_t k = 0; k < len; k++)
        if (at[k] != JUNK) return 0;
    return 1;
}

static int same(const uint8_t *a, const uint8_t *b, size_t len) {
    for (size_t k = 0; k < len; k++)
        if (a[k] != b[k]) return 0;
    return 1;
}

#endif
