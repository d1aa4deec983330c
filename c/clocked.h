/* The C test of clocked circuits: a counter of one bit, its unfolding and its dictionary by hand, and what is refused. Every byte that is lent and of
   the answer is compared after each call. */
#ifndef CLOCKED_H
#define CLOCKED_H
#include "expect.h"
#include "records.h"

/* Lines 0 and 1 inputs, of which line 1 is the state; 2 = XOR(0, 1), the next state; 3 = AND(0, 1), the carry, an output. */
static const uint8_t counter[] = {INPUT, INPUT, LINE(ULLIMAQSU_XOR, 0, 0, 1), LINE(ULLIMAQSU_AND, 1, 0, 1)};
static const uint8_t next_to_state[] = {2, 0, 1, 0};

/* Over two steps: in the second, lines 4 to 7, the state is a buffer of line 2, and the next state an output. So line 4 is the third input. */
static const uint8_t counter_twice[] = {
    INPUT, INPUT, LINE(ULLIMAQSU_XOR, 0, 0, 1), LINE(ULLIMAQSU_AND, 1, 0, 1),
    INPUT, LINE(ULLIMAQSU_BUFFER, 0, 2, 0), LINE(ULLIMAQSU_XOR, 1, 4, 5), LINE(ULLIMAQSU_AND, 1, 4, 5)};

/* The state stuck at 0, the next state stuck at 1, the first pin of the carry stuck at 1, in both steps each. Counting twice from 0, the first is
   seen in step 2 alone, at the next state and the carry; with 01X the carry of step 1 alone is known; with X00 the carry of both, and with its
   pin stuck the second is X. */
static const uint8_t
    counter_faults[] = {1, 0, 0, 0, 0, 0, 0, 0, 2, 0, 0, 1, 0, 0, 0, 0, 3, 0, 1, 1, 0, 0, 0, 0},
    counter_patterns[] = {1, 0, 1, 0, 0, 0, 0, 1, 2, 2, 0, 0},
    table_of_counter[] = {F, F, P, P, F, P, P, P, F, P, P, ULLIMAQSU_UNKNOWN},
    work_of_counter[] = {2, 0, 2, 0, 0, 2, 2, 0, 2, 0, 2, 0, 0, 2, 2, 2};

/* The counter with other lengths, states, steps and faults. */
static const uint8_t
    no_such_data[] = {4, 0, 1, 0},
    no_such_state[] = {2, 0, 1, 1},
    state_is_a_gate[] = {0, 0, 1, 0, 2, 0, 3, 0},
    state_again[] = {2, 0, 1, 0, 3, 0, 0, 0, 3, 0, 1, 0},
    fault_of_step_2[] = {1, 0, 0, 0, 0, 0, 0, 0, 6, 0, 0, 1, 0, 0, 0, 0},
    pin_of_a_state[] = {1, 0, 1, 0, 0, 0, 0, 0};
static const struct clocked {
    const char *name;
    size_t circuit;
    const uint8_t *states;
    size_t states_len;
    uint64_t steps;
    const uint8_t *faults;
    size_t faults_len, patterns, table, work;
    uint32_t returned;
    uint64_t place;
} clocked[] = {
    {"the counter", 32, next_to_state, 4, 2, counter_faults, 24, 12, 12, 16, ULLIMAQSU_FINE, 0},
    {"inputs alone, and nothing else right", 24, next_to_state, 3, 9, counter_faults, 23, 11, 11, 15, ULLIMAQSU_NO_OUTPUT, 0},
    {"no steps, and nothing after them right", 32, next_to_state, 3, 0, counter_faults, 23, 11, 11, 15, ULLIMAQSU_STEP_COUNT, 0},
    {"nine steps", 32, next_to_state, 4, 9, counter_faults, 24, 10, 3, 72, ULLIMAQSU_STEP_COUNT, 0},
    {"two steps in the lower half", 32, next_to_state, 4, ((uint64_t)1 << 32) + 2, counter_faults, 24, 12, 12, 16, ULLIMAQSU_STEP_COUNT, 0},
    {"part of a state record, and nothing after it right", 32, next_to_state, 3, 2, counter_faults, 23, 11, 11, 15, ULLIMAQSU_STATE_RECORDS, 0},
    {"a data line that is none", 32, no_such_data, 4, 2, counter_faults, 24, 12, 12, 16, ULLIMAQSU_STATE_RECORDS, 0},
    {"a state line that is none, by its second byte", 32, no_such_state, 4, 2, counter_faults, 24, 12, 12, 16, ULLIMAQSU_STATE_RECORDS, 0},
    {"a state line that is a gate, and part of a fault", 32, state_is_a_gate, 8, 2, counter_faults, 23, 12, 12, 16, ULLIMAQSU_STATE_RECORDS, 1},
    {"a state line named again", 32, state_again, 12, 2, counter_faults, 24, 8, 12, 16, ULLIMAQSU_STATE_RECORDS, 2},
    {"part of a fault, and nothing after it right", 32, next_to_state, 4, 2, counter_faults, 23, 11, 11, 15, ULLIMAQSU_FAULTS_SIZE, 0},
    {"a fault of the unfolded circuit", 32, next_to_state, 4, 2, fault_of_step_2, 16, 11, 11, 15, ULLIMAQSU_FAULT_LAYOUT, 1},
    {"a pin of a state line", 32, next_to_state, 4, 2, pin_of_a_state, 8, 11, 11, 15, ULLIMAQSU_FAULT_LAYOUT, 0},
    {"patterns for one step, and nothing after them right", 32, next_to_state, 4, 2, counter_faults, 24, 8, 11, 15, ULLIMAQSU_PATTERNS_SIZE, 0},
    {"no patterns", 32, next_to_state, 4, 2, counter_faults, 24, 0, 0, 16, ULLIMAQSU_PATTERNS_SIZE, 0},
    {"a table too small", 32, next_to_state, 4, 2, counter_faults, 24, 12, 11, 16, ULLIMAQSU_BUFFER_SIZE, 0},
    {"a table too large", 32, next_to_state, 4, 2, counter_faults, 24, 12, 13, 16, ULLIMAQSU_BUFFER_SIZE, 0},
    {"a work memory for one step", 32, next_to_state, 4, 2, counter_faults, 24, 12, 12, 8, ULLIMAQSU_BUFFER_SIZE, 0},
    {"a work memory too large", 32, next_to_state, 4, 2, counter_faults, 24, 12, 12, 17, ULLIMAQSU_BUFFER_SIZE, 0},
};

/* With areas of each size. */
static void test_unfold_dictionary(const struct clocked *given) {
    for (size_t len = 0; len <= 34; len++) {
        uint8_t table[14], work[74], area[36];
        const uint64_t numbers[4] = {given->place};
        fill(table, sizeof table), fill(work, sizeof work), fill(area, sizeof area);
        uint32_t returned = ullimaqsu_unfold_dictionary(counter, given->circuit, given->states, given->states_len, given->steps, given->faults,
                                                        given->faults_len, counter_patterns, given->patterns, table + 1, given->table, work + 1,
                                                        given->work, area + 1, len);
        size_t made = returned ? 0 : sizeof table_of_counter, worked = returned ? 0 : sizeof work_of_counter;
        expect(returned == (len == 32 ? given->returned : ULLIMAQSU_BUFFER_SIZE), given->name);
        expect(len == 32 ? answers(area + 1, numbers) : stays(area + 1, 32), given->name);
        expect(stays(area, 1) && stays(area + 33, 3), "the bytes around the answer area stay");
        expect(same(table + 1, table_of_counter, made) && stays(table, 1) && stays(table + 1 + made, 13 - made), "the counter's table, and nothing else");
        expect(same(work + 1, work_of_counter, worked) && stays(work, 1) && stays(work + 1 + worked, 73 - worked), "its work memory, and nothing else");
    }
}

/* The same with a buffer of some sizes, where neither faults nor patterns are asked for. */
static void test_unfold(const struct clocked *given) {
    static const size_t rooms[] = {0, 32, 63, 64, 65, 128};
    int unfolds = given->returned == ULLIMAQSU_FINE || (given->returned >= ULLIMAQSU_FAULTS_SIZE && given->returned <= ULLIMAQSU_BUFFER_SIZE);
    for (size_t i = 0; i < sizeof rooms / sizeof *rooms; i++)
        for (size_t len = 31; len <= 33; len++) {
            uint8_t unfolded[130], area[36];
            uint32_t expected = len != 32 ? ULLIMAQSU_BUFFER_SIZE : !unfolds ? given->returned : rooms[i] == 64 ? ULLIMAQSU_FINE : ULLIMAQSU_BUFFER_SIZE;
            const uint64_t numbers[4] = {!unfolds ? given->place : rooms[i] == 64 ? 8 : 0};
            fill(unfolded, sizeof unfolded), fill(area, sizeof area);
            uint32_t returned = ullimaqsu_unfold(counter, given->circuit, given->states, given->states_len, given->steps, unfolded + 1, rooms[i],
                                                 area + 1, len);
            size_t written = returned ? 0 : sizeof counter_twice;
            expect(returned == expected, given->name);
            expect(len == 32 ? answers(area + 1, numbers) : stays(area + 1, 32), given->name);
            expect(stays(area, 1) && stays(area + 33, 3), "the bytes around the answer area stay");
            expect(same(unfolded + 1, counter_twice, written), "the counter unfolded");
            expect(stays(unfolded, 1) && stays(unfolded + 1 + written, 129 - written), "nothing else is written");
        }
}

/* Sizes after unfolding: eight steps of eight inputs are 64 inputs, a step with a state line more has 65 in all; no states are asked for. */
static void test_unfolded_sizes(void) {
    static const uint8_t eight[] = {EIGHT_INPUTS, OUTPUT_OF(7)}, nine[] = {EIGHT_INPUTS, INPUT, OUTPUT_OF(8)}, to_line_8[] = {9, 0, 8, 0};
    static const uint64_t lines[4] = {72}, nothing[4];
    static uint8_t unfolded[8 * 80];
    uint8_t area[32];
    fill(unfolded, sizeof unfolded);
    expect(ullimaqsu_unfold(nine, sizeof nine, to_line_8, 4, 8, unfolded, 8 * 80, area, 32) == ULLIMAQSU_UNFOLDED_SIZE, "65 inputs");
    expect(answers(area, nothing) && stays(unfolded, sizeof unfolded), "nothing is written for 65 inputs");
    expect(ullimaqsu_unfold(eight, sizeof eight, 0, 0, 8, unfolded, 8 * 72, area, 32) == ULLIMAQSU_FINE && answers(area, lines), "64 inputs");
    expect(ullimaqsu_check(unfolded, 8 * 72, area, 32) == ULLIMAQSU_FINE && number(area, 1) == 64 && number(area, 2) == 8, "which the check accepts");
}

/* One line, a state line that feeds itself and is an output: so it is in each of three steps, and stuck there in each. */
static void test_held(void) {
    static const uint8_t line[] = {LINE(ULLIMAQSU_INPUT, 1, 0, 0)}, itself[] = {0, 0, 0, 0}, at_0[] = {0, 0, 0, 0, 0, 0, 0, 0};
    static const uint8_t in_three[] = {LINE(ULLIMAQSU_INPUT, 1, 0, 0), OUTPUT_OF(0), OUTPUT_OF(1)};
    static const uint8_t each[] = {0, 2, 1}, expected[] = {P, P, F}, last[] = {1, 1, 1, 0, 0, 0};
    uint8_t unfolded[24], table[3], work[6], area[32];
    uint32_t returned = ullimaqsu_unfold(line, 8, itself, 4, 3, unfolded, 24, area, 32);
    expect(returned == ULLIMAQSU_FINE && same(unfolded, in_three, 24), "a state line that feeds itself");
    returned = ullimaqsu_unfold_dictionary(line, 8, itself, 4, 3, at_0, 8, each, 3, table, 3, work, 6, area, 32);
    expect(returned == ULLIMAQSU_FINE && same(table, expected, 3) && same(work, last, 6), "its dictionary");
}

static void test_clocked(void) {
    for (size_t i = 0; i < sizeof clocked / sizeof *clocked; i++) {
        test_unfold_dictionary(clocked + i);
        test_unfold(clocked + i);
    }
    test_unfolded_sizes();
    test_held();
}

#endif
