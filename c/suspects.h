/* The C test of suspects: a session with its refusals, and areas that are no opened state. Every byte of the state, the marks and the answer is
   compared after each call. */
#ifndef SUSPECTS_H
#define SUSPECTS_H
#include "expect.h"

/* A state between guards, the marks of three faults and an answer. */
struct bench {
    uint8_t before[1], state[ULLIMAQSU_SUSPECTS], behind[1], marks[4], answer[34];
};

static void copy(uint8_t *to, const uint8_t *from, size_t len) {
    for (size_t k = 0; k < len; k++) to[k] = from[k];
}

static int guards_stand(const struct bench *bench) {
    return stays(bench->before, 1) && stays(bench->behind, 1) && stays(bench->answer, 1) && stays(bench->answer + 33, 1) && stays(bench->marks + 3, 1);
}

/* The state of these counts, each below 256, in which these of three faults remain. */
static void lay_out(uint8_t *state, uint8_t faults, uint8_t patterns, const uint8_t *marks) {
    for (size_t k = 0; k < ULLIMAQSU_SUSPECTS; k++) state[k] = 0;
    state[0] = faults, state[8] = patterns, state[16] = (uint8_t)(faults * patterns);
    for (size_t k = 0; k < 3; k++) state[24] = (uint8_t)(state[24] + marks[k]), state[32 + k] = marks[k];
}

/* FUP and PFU, and what is called with them in turn: the state is opened or a pattern reported, and these faults then remain. A refusal leaves
   those of the call before. */
static const uint8_t fup_pfu[] = {ULLIMAQSU_FAIL, ULLIMAQSU_UNKNOWN, ULLIMAQSU_PASS, ULLIMAQSU_PASS, ULLIMAQSU_FAIL, ULLIMAQSU_UNKNOWN};
enum call { OPEN, REPORT };
static const struct step {
    const char *name;
    enum call call;
    uint64_t faults, patterns;
    size_t table;
    int bad; /* the place of a byte above 2, if not below 0 */
    uint64_t pattern, failed;
    uint32_t returned;
    uint64_t number;
    uint8_t marks[3];
} steps[] = {
    {"opened", OPEN, 3, 2, 6, -1, 0, 0, ULLIMAQSU_FINE, 3, {1, 1, 1}},
    {"FUP failed: unknown stays", REPORT, 3, 2, 6, -1, 0, 1, ULLIMAQSU_FINE, 2, {1, 1, 0}},
    {"the same again, by another number", REPORT, 3, 2, 6, -1, 0, (uint64_t)1 << 32, ULLIMAQSU_FINE, 2, {1, 1, 0}},
    {"no faults, and no such pattern", REPORT, 0, 2, 0, -1, 9, 1, ULLIMAQSU_TABLE_SIZE, 0, {1, 1, 0}},
    {"257 patterns", REPORT, 3, 257, 6, -1, 0, 0, ULLIMAQSU_TABLE_SIZE, 0, {1, 1, 0}},
    {"other counts with the same product", REPORT, 2, 3, 6, -1, 0, 0, ULLIMAQSU_TABLE_SIZE, 0, {1, 1, 0}},
    {"fewer patterns than at opening", REPORT, 3, 1, 3, -1, 0, 0, ULLIMAQSU_TABLE_SIZE, 0, {1, 1, 0}},
    {"a table too small, and a bad byte", REPORT, 3, 2, 5, 4, 0, 0, ULLIMAQSU_TABLE_SIZE, 0, {1, 1, 0}},
    {"a bad byte in another row", REPORT, 3, 2, 6, 5, 0, 0, ULLIMAQSU_TABLE_BYTE, 5, {1, 1, 0}},
    {"a bad byte, and no such pattern", REPORT, 3, 2, 6, 1, 2, 0, ULLIMAQSU_TABLE_BYTE, 1, {1, 1, 0}},
    {"no such pattern", REPORT, 3, 2, 6, -1, 2, 0, ULLIMAQSU_NO_PATTERN, 0, {1, 1, 0}},
    {"no such pattern at all", REPORT, 3, 2, 6, -1, (uint64_t)-1, 1, ULLIMAQSU_NO_PATTERN, 0, {1, 1, 0}},
    {"opened anew with no patterns", OPEN, 3, 0, 0, -1, 0, 0, ULLIMAQSU_TABLE_SIZE, 0, {1, 1, 0}},
    {"opened anew with a bad byte", OPEN, 3, 2, 6, 3, 0, 0, ULLIMAQSU_TABLE_BYTE, 3, {1, 1, 0}},
    {"FUP passed, which contradicts: unknown stays", REPORT, 3, 2, 6, -1, 0, 0, ULLIMAQSU_FINE, 1, {0, 1, 0}},
    {"PFU passed: none remains", REPORT, 3, 2, 6, -1, 1, 0, ULLIMAQSU_FINE, 0, {0, 0, 0}},
    {"PFU failed: none comes back", REPORT, 3, 2, 6, -1, 1, 1, ULLIMAQSU_FINE, 0, {0, 0, 0}},
    {"opened anew", OPEN, 3, 2, 6, -1, 0, 0, ULLIMAQSU_FINE, 3, {1, 1, 1}},
    {"PFU failed", REPORT, 3, 2, 6, -1, 1, 1, ULLIMAQSU_FINE, 2, {0, 1, 1}},
};

static uint32_t take_step(const struct step *step, uint8_t *state, size_t state_len, uint8_t *answer, size_t answer_len) {
    uint8_t table[6];
    copy(table, fup_pfu, sizeof table);
    if (step->bad >= 0) table[step->bad] = 3;
    return step->call == OPEN ? ullimaqsu_suspects_open(step->faults, step->patterns, table, step->table, state, state_len, answer, answer_len)
                              : ullimaqsu_suspects_report(step->faults, step->patterns, table, step->table, step->pattern, step->failed, state,
                                                          state_len, answer, answer_len);
}

/* Whatever else is right or wrong: areas of other sizes. */
static void test_other_sizes(const struct step *step, const struct bench *bench) {
    for (size_t len = 0; len <= 34; len++) {
        struct bench other = *bench;
        if (len == 32) continue;
        uint32_t returned = take_step(step, other.state, ULLIMAQSU_SUSPECTS, other.answer, len);
        expect(returned == ULLIMAQSU_BUFFER_SIZE && same((uint8_t *)&other, (const uint8_t *)bench, sizeof other), "an answer area of another size");
    }
    for (size_t len = ULLIMAQSU_SUSPECTS - 1; len <= ULLIMAQSU_SUSPECTS + 1; len += 2) {
        static const uint64_t nothing[4];
        struct bench other = *bench;
        uint32_t returned = take_step(step, other.state, len, other.answer + 1, 32);
        expect(returned == ULLIMAQSU_BUFFER_SIZE && answers(other.answer + 1, nothing), "a state of another size");
        expect(same(other.state, bench->state, sizeof other.state) && guards_stand(&other), "a state of another size stays");
    }
}

/* The marks of the state, with room for them and with room for others. */
static void test_marks(struct bench *bench, const uint8_t *marks, const char *name) {
    const uint64_t numbers[4] = {(uint64_t)(marks[0] + marks[1] + marks[2]), 3, 2};
    static const uint64_t nothing[4];
    uint8_t state[ULLIMAQSU_SUSPECTS];
    copy(state, bench->state, sizeof state);
    for (size_t len = 0; len <= 4; len++) {
        fill(bench->marks, sizeof bench->marks), fill(bench->answer, sizeof bench->answer);
        uint32_t returned = ullimaqsu_suspects_marks(bench->state, ULLIMAQSU_SUSPECTS, bench->marks, len, bench->answer + 1, 32);
        expect(returned == (len == 3 ? ULLIMAQSU_FINE : ULLIMAQSU_BUFFER_SIZE) && answers(bench->answer + 1, len == 3 ? numbers : nothing), name);
        expect(len == 3 ? same(bench->marks, marks, 3) : stays(bench->marks, 3), "the marks are written, and nothing for another number of them");
        expect(same(bench->state, state, sizeof state) && guards_stand(bench), "reading marks changes nothing else");
    }
}

static void test_session(struct bench *bench) {
    for (const struct step *step = steps; step < steps + sizeof steps / sizeof *steps; step++) {
        const uint64_t numbers[4] = {step->number};
        uint8_t expected[ULLIMAQSU_SUSPECTS];
        test_other_sizes(step, bench);
        fill(bench->answer, sizeof bench->answer);
        uint32_t returned = take_step(step, bench->state, ULLIMAQSU_SUSPECTS, bench->answer + 1, 32);
        lay_out(expected, 3, 2, step->marks);
        expect(returned == step->returned && answers(bench->answer + 1, numbers), step->name);
        expect(same(bench->state, expected, sizeof expected) && guards_stand(bench), step->name);
        test_marks(bench, step->marks, step->name);
    }
}

/* No report and no marks of what was not opened, and no byte changes. */
static void test_not_opened(const struct bench *bench) {
    static const struct step reported = {"", REPORT, 0, 0, 0, -1, 9, 0, 0, 0, {0}}; /* nothing after the state is right */
    static const uint64_t nothing[4];
    for (int marks = 0; marks < 2; marks++) {
        struct bench other = *bench;
        uint32_t returned = marks ? ullimaqsu_suspects_marks(other.state, ULLIMAQSU_SUSPECTS, other.marks, 2, other.answer + 1, 32)
                                  : take_step(&reported, other.state, ULLIMAQSU_SUSPECTS, other.answer + 1, 32);
        expect(returned == ULLIMAQSU_NOT_OPENED && answers(other.answer + 1, nothing), "no opened state");
        expect(same(other.state, bench->state, sizeof other.state) && same(other.marks, bench->marks, sizeof other.marks), "it stays, and so do marks");
        expect(guards_stand(&other), "nothing around them is written");
    }
}

static void test_suspects(void) {
    static const uint8_t others[] = {1, 2, 128, 254, 255};
    struct bench bench;
    fill((uint8_t *)&bench, sizeof bench);
    test_not_opened(&bench);
    test_session(&bench);
    fill(bench.marks, sizeof bench.marks), fill(bench.answer, sizeof bench.answer);
    for (size_t k = 0; k < ULLIMAQSU_SUSPECTS; k++)
        for (size_t i = 0; i < sizeof others; i++) {
            struct bench damaged = bench;
            damaged.state[k] ^= others[i];
            test_not_opened(&damaged);
        }
    for (size_t k = 2; k <= 3; k++) { /* a mark of 2, and one behind the last fault: each is counted in the number remaining */
        struct bench damaged = bench;
        damaged.state[32 + k]++, damaged.state[24]++;
        test_not_opened(&damaged);
    }
}

#endif
