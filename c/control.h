/* The C test of how hard lines are to set: chances by hand, the floor, and what is refused. They are compared byte by byte, and so is what stays. */
#ifndef CONTROL_H
#define CONTROL_H
#include "expect.h"
#include "records.h"

/* The six NANDs of c17. Line 2 is read by lines 5 and 6, line 6 by 7 and 8, line 7 by both outputs. */
static const uint8_t nands[] = {
    INPUT, INPUT, INPUT, INPUT, INPUT,
    LINE(ULLIMAQSU_NAND, 0, 0, 2), LINE(ULLIMAQSU_NAND, 0, 2, 3), LINE(ULLIMAQSU_NAND, 0, 1, 6),
    LINE(ULLIMAQSU_NAND, 0, 6, 4), LINE(ULLIMAQSU_NAND, 1, 5, 7), LINE(ULLIMAQSU_NAND, 1, 7, 8)};
static const double
    ones_of_nands[] = {1, 1, 1, 1, 1, 1, 1, 1, 1, 0.5, 0.5},
    zeros_of_nands[] = {1, 1, 1, 1, 1, 0.5, 0.5, 0.5, 0.5, 0.5, 0.5};

/* A line of each kind over line 1, of whose chances, 1/4 and 1/2, every pin sees half, and over an input that nothing else reads. */
static const uint8_t each_kind[] = {
    INPUT, LINE(ULLIMAQSU_AND, 0, 0, 0), OUTPUT_OF(1), NOT_OF(1, 1),
    INPUT, LINE(ULLIMAQSU_AND, 1, 1, 4), INPUT, LINE(ULLIMAQSU_NAND, 1, 6, 1),
    INPUT, LINE(ULLIMAQSU_OR, 1, 1, 8), INPUT, LINE(ULLIMAQSU_NOR, 1, 10, 1),
    INPUT, LINE(ULLIMAQSU_XOR, 1, 1, 12), INPUT, LINE(ULLIMAQSU_XNOR, 1, 14, 1),
    INPUT, SELECTOR_OF(1, 1, 16, 1)};
static const double
    ones_of_each_kind[] = {1, 0.25, 0.125, 0.25, 1, 0.125, 1, 1, 1, 1, 1, 0.25, 1, 0.25, 1, 0.25, 1, 0.125},
    zeros_of_each_kind[] = {1, 0.5, 0.25, 0.125, 1, 1, 1, 0.125, 1, 0.25, 1, 1, 1, 0.25, 1, 0.25, 1, 0.125};

static const uint8_t reads_its_own[] = {INPUT, NOT_OF(1, 1)};

static const struct chances {
    const char *name;
    const uint8_t *circuit;
    size_t circuit_len, ones_len, zeros_len;
    const double *ones, *zeros;
    uint32_t returned;
    uint64_t place;
} chances[] = {
    {"chances of c17", nands, sizeof nands, 11, 11, ones_of_nands, zeros_of_nands, ULLIMAQSU_FINE, 0},
    {"chances of each kind", each_kind, sizeof each_kind, 18, 18, ones_of_each_kind, zeros_of_each_kind, ULLIMAQSU_FINE, 0},
    {"no circuit, and nothing else right", 0, 0, 11, 12, 0, 0, ULLIMAQSU_CIRCUIT_SIZE, 0},
    {"a line that reads itself, and nothing else right", reads_its_own, sizeof reads_its_own, 0, 1, 0, 0, ULLIMAQSU_CIRCUIT_LAYOUT, 10},
    {"no output, and nothing else right", no_output, sizeof no_output, 1, 3, 0, 0, ULLIMAQSU_NO_OUTPUT, 0},
    {"a chance of 1 too few", nands, sizeof nands, 10, 11, 0, 0, ULLIMAQSU_BUFFER_SIZE, 0},
    {"a chance of 1 too many", nands, sizeof nands, 12, 11, 0, 0, ULLIMAQSU_BUFFER_SIZE, 0},
    {"a chance of 0 too few", nands, sizeof nands, 11, 10, 0, 0, ULLIMAQSU_BUFFER_SIZE, 0},
    {"a chance of 0 too many", nands, sizeof nands, 11, 12, 0, 0, ULLIMAQSU_BUFFER_SIZE, 0},
    {"as many bytes as chances", nands, sizeof nands, 88, 88, 0, 0, ULLIMAQSU_BUFFER_SIZE, 0},
};

/* A number of doubles with a guard on either side, and the bits and bytes of all. */
union lent {
    double chances[90];
    uint64_t bits[90];
    uint8_t bytes[90 * 8];
};

/* Bits that arithmetic would not all leave: of the lowest number above 0, of a NaN that signals, which what is lent begins with, of one that is
   quiet, and of bytes that stay. */
static const uint64_t before[] = {1, 0x7ff0000000000001, 0xfff8000000000123, 0xeeeeeeeeeeeeeeee};

static void fill_bits(union lent *lent) {
    for (size_t k = 0; k < 90; k++) lent->bits[k] = before[k % 4];
}

/* From the first double on these stand, and around them what stood there before. */
static int holds(const union lent *lent, const double *expected, size_t len) {
    union lent as_before;
    fill_bits(&as_before);
    return same(lent->bytes, as_before.bytes, 8) && same(lent->bytes + 8, (const uint8_t *)expected, 8 * len) &&
           same(lent->bytes + 8 + 8 * len, as_before.bytes + 8 + 8 * len, sizeof lent->bytes - 8 - 8 * len);
}

/* With areas of each size. */
static void test_chances(const struct chances *given) {
    for (size_t len = 0; len <= 34; len++) {
        union lent ones, zeros;
        uint8_t area[36];
        const uint64_t numbers[4] = {given->place};
        fill_bits(&ones), fill_bits(&zeros), fill(area, sizeof area);
        uint32_t returned = ullimaqsu_control(given->circuit, given->circuit_len, ones.chances + 1, given->ones_len, zeros.chances + 1,
                                              given->zeros_len, area + 1, len);
        size_t written = returned ? 0 : given->ones_len;
        expect(returned == (len == 32 ? given->returned : ULLIMAQSU_BUFFER_SIZE), given->name);
        expect(len == 32 ? answers(area + 1, numbers) : stays(area + 1, 32), given->name);
        expect(stays(area, 1) && stays(area + 33, 3), "the bytes around the answer area stay");
        expect(holds(&ones, given->ones, written) && holds(&zeros, given->zeros, written), "the chances are written, and nothing else");
    }
}

static int is(double chance, double expected) { return same((const uint8_t *)&chance, (const uint8_t *)&expected, sizeof chance); }

/* An AND that reads the line below with both pins, 2,047 times: each has half of its chance of 0, down to 2^-500, and a quarter of the square of
   its chance of 1, so that the eighth is at the floor. */
static void test_floor(void) {
    static uint8_t circuit[8 * 2048];
    static double ones[2048], zeros[2048];
    uint8_t area[32];
    double one = 1, zero = 1;
    for (size_t line = 1; line < 2048; line++) {
        uint8_t *record = circuit + 8 * line;
        record[0] = ULLIMAQSU_AND;
        record[2] = record[4] = (uint8_t)(line - 1);
        record[3] = record[5] = (uint8_t)((line - 1) >> 8);
    }
    circuit[8 * 2047 + 1] = 1;
    expect(ullimaqsu_control(circuit, sizeof circuit, ones, 2048, zeros, 2048, area, 32) == ULLIMAQSU_FINE, "a chain of ANDs");
    for (size_t line = 0; line < 2048; line++) {
        expect(is(ones[line], one) && is(zeros[line], zero), "chances down to the floor");
        one = line < 7 ? one * one / 4 : 0x1p-500;
        zero = line < 500 ? zero / 2 : 0x1p-500;
    }
    expect(is(ones[7], 0x1p-254) && is(ones[8], 0x1p-500), "the square of a chance is below the floor");
    expect(is(zeros[499], 0x1p-499) && is(zeros[500], 0x1p-500) && is(zeros[501], 0x1p-500), "half of the floor is the floor");
}

/* Without a circuit nothing that is lent is looked at, and there may be no memory at all. */
static void test_no_memory(void) {
    uint8_t area[32];
    expect(ullimaqsu_control(0, 0, 0, 0, 0, 0, area, 32) == ULLIMAQSU_CIRCUIT_SIZE, "no memory, and no circuit");
    expect(ullimaqsu_control(nands, sizeof nands, 0, 0, 0, 0, area, 32) == ULLIMAQSU_BUFFER_SIZE, "no memory");
    expect(ullimaqsu_control(nands, sizeof nands, 0, 0, 0, 0, 0, 0) == ULLIMAQSU_BUFFER_SIZE, "no memory, and no area");
}

static void test_control(void) {
    for (size_t i = 0; i < sizeof chances / sizeof *chances; i++) test_chances(chances + i);
    test_floor();
    test_no_memory();
}

#endif
