/* The entries through the header, as C calls them: a table of cases for each, and what an answer area of another size does. */
#include "clocked.h"
#include "control.h"
#include "expect.h"
#include "records.h"
#include "suspects.h"

static const uint8_t
    example_a[] = {INPUT, INPUT, INPUT, LINE(ULLIMAQSU_AND, 0, 0, 1), LINE(ULLIMAQSU_OR, 1, 3, 2)},
    first_is_a_buffer[] = {OUTPUT_OF(0)},
    reads_itself[] = {INPUT, INPUT, NOT_OF(1, 2)},
    no_such_kind[] = {INPUT, LINE(ULLIMAQSU_SELECTOR + 1, 2, 1, 1)},
    no_such_output[] = {INPUT, LINE(ULLIMAQSU_BUFFER, 2, 1, 1)},
    second_byte_alone[] = {INPUT, ULLIMAQSU_AND, 1, 0, 0, 0, 1, 0, 0},
    last_byte_alone[] = {INPUT, ULLIMAQSU_AND, 1, 0, 0, 0, 0, 0, 1, LINE(ULLIMAQSU_SELECTOR + 1, 2, 3, 3)},
    selector[] = {INPUT, INPUT, INPUT, SELECTOR_OF(1, 0, 1, 2)},
    one_line_for_all_three[] = {INPUT, SELECTOR_OF(1, 0, 0, 0)},
    and_with_a_select[] = {INPUT, INPUT, ULLIMAQSU_AND, 1, 0, 0, 1, 0, 1, 0},
    selects_itself[] = {INPUT, INPUT, INPUT, SELECTOR_OF(1, 0, 1, 3)},
    select_too_high[] = {INPUT, INPUT, INPUT, ULLIMAQSU_SELECTOR, 1, 0, 0, 1, 0, 2, 1},
    inputs_64[] = {EIGHT_INPUTS, EIGHT_INPUTS, EIGHT_INPUTS, EIGHT_INPUTS, EIGHT_INPUTS, EIGHT_INPUTS, EIGHT_INPUTS, EIGHT_INPUTS, OUTPUT_OF(63)},
    inputs_65[] = {EIGHT_INPUTS, EIGHT_INPUTS, EIGHT_INPUTS, EIGHT_INPUTS, EIGHT_INPUTS, EIGHT_INPUTS, EIGHT_INPUTS, EIGHT_INPUTS, INPUT, OUTPUT_OF(64)};

static const struct {
    const char *name;
    const uint8_t *circuit;
    size_t len;
    uint32_t returned;
    uint64_t numbers[4];
} checks[] = {
    {"example A", example_a, sizeof example_a, ULLIMAQSU_FINE, {5, 3, 1, 0}},
    {"64 inputs", inputs_64, sizeof inputs_64, ULLIMAQSU_FINE, {65, 64, 1, 0}},
    {"no circuit at all", 0, 0, ULLIMAQSU_CIRCUIT_SIZE, {0, 0, 0, 0}},
    {"seven bytes", example_a, 7, ULLIMAQSU_CIRCUIT_SIZE, {0, 0, 0, 0}},
    {"line 0 is a buffer", first_is_a_buffer, sizeof first_is_a_buffer, ULLIMAQSU_CIRCUIT_LAYOUT, {2, 0, 0, 0}},
    {"a line reads itself", reads_itself, sizeof reads_itself, ULLIMAQSU_CIRCUIT_LAYOUT, {18, 0, 0, 0}},
    {"no such kind, output and sources wrong too", no_such_kind, sizeof no_such_kind, ULLIMAQSU_CIRCUIT_LAYOUT, {8, 0, 0, 0}},
    {"no such output, both sources wrong too", no_such_output, sizeof no_such_output, ULLIMAQSU_CIRCUIT_LAYOUT, {9, 0, 0, 0}},
    {"only a source's second byte wrong", second_byte_alone, sizeof second_byte_alone, ULLIMAQSU_CIRCUIT_LAYOUT, {12, 0, 0, 0}},
    {"only the last byte wrong, and a line after it", last_byte_alone, sizeof last_byte_alone, ULLIMAQSU_CIRCUIT_LAYOUT, {14, 0, 0, 0}},
    {"a selector", selector, sizeof selector, ULLIMAQSU_FINE, {4, 3, 1, 0}},
    {"a selector that reads one line at each pin", one_line_for_all_three, sizeof one_line_for_all_three, ULLIMAQSU_FINE, {2, 1, 1, 0}},
    {"an AND with a select", and_with_a_select, sizeof and_with_a_select, ULLIMAQSU_CIRCUIT_LAYOUT, {22, 0, 0, 0}},
    {"a selector that selects by itself", selects_itself, sizeof selects_itself, ULLIMAQSU_CIRCUIT_LAYOUT, {30, 0, 0, 0}},
    {"only a select's second byte wrong", select_too_high, sizeof select_too_high, ULLIMAQSU_CIRCUIT_LAYOUT, {30, 0, 0, 0}},
    {"65 inputs", inputs_65, sizeof inputs_65, ULLIMAQSU_MANY_INPUTS, {0, 0, 0, 0}},
    {"65 inputs and no output", inputs_65, 65 * 8, ULLIMAQSU_MANY_INPUTS, {0, 0, 0, 0}},
    {"no output", no_output, sizeof no_output, ULLIMAQSU_NO_OUTPUT, {0, 0, 0, 0}},
};

static void test_check(void) {
    for (size_t i = 0; i < sizeof checks / sizeof *checks; i++) {
        uint8_t area[34];
        fill(area, sizeof area);
        uint32_t returned = ullimaqsu_check(checks[i].circuit, checks[i].len, area + 1, 32);
        expect(returned == checks[i].returned && answers(area + 1, checks[i].numbers), checks[i].name);
        expect(stays(area, 1) && stays(area + 33, 1), "the bytes around the answer area stay");
    }
}

static void test_areas(void) {
    for (size_t len = 0; len <= 40; len++) {
        uint8_t area[40];
        fill(area, sizeof area);
        uint32_t returned = ullimaqsu_check(example_a, sizeof example_a, len ? area : 0, len);
        expect(returned == (len == 32 ? ULLIMAQSU_FINE : ULLIMAQSU_BUFFER_SIZE), "an area of another size is refused");
        expect(len == 32 || stays(area, sizeof area), "an area of another size stays");
    }
}

static const uint8_t
    faults[] = {3, 0, 0, 0, 0, 0, 0, 0, 3, 0, 0, 1, 0, 0, 0, 0, 2, 0, 0, 1, 0, 0, 0, 0, 0, 0, 0, 0, 0, 0, 0, 0},
    patterns[] = {1, 1, 0, 0, 1, 0, 0, 2, 0, 2, 1, 0},
    table_of_a[] = {F, P, P, F, P, F, F, P, P, F, F, P, P, P, P, P},
    work_of_a[] = {2, 1, 0, 2, 2, 0, 1, 0, 0, 0};
static const uint64_t none[4];

/* Example A, with other lengths. */
static const struct {
    const char *name;
    size_t circuit, faults, patterns, table, work;
    uint32_t returned;
} dictionaries[] = {
    {"dictionary of example A", 40, 32, 12, 16, 10, ULLIMAQSU_FINE},
    {"seven bytes of a circuit, and nothing else right", 7, 31, 11, 15, 9, ULLIMAQSU_CIRCUIT_SIZE},
    {"inputs alone, and nothing else right", 24, 31, 11, 15, 9, ULLIMAQSU_NO_OUTPUT},
    {"part of a fault, and nothing after it right", 40, 31, 11, 15, 9, ULLIMAQSU_FAULTS_SIZE},
    {"no faults", 40, 0, 12, 0, 10, ULLIMAQSU_FAULTS_SIZE},
    {"part of a pattern, and nothing after it right", 40, 32, 11, 15, 9, ULLIMAQSU_PATTERNS_SIZE},
    {"no patterns", 40, 32, 0, 0, 10, ULLIMAQSU_PATTERNS_SIZE},
    {"a table too small", 40, 32, 12, 15, 10, ULLIMAQSU_BUFFER_SIZE},
    {"a table too large", 40, 32, 12, 17, 10, ULLIMAQSU_BUFFER_SIZE},
    {"a work memory too small", 40, 32, 12, 16, 9, ULLIMAQSU_BUFFER_SIZE},
    {"a work memory too large", 40, 32, 12, 16, 11, ULLIMAQSU_BUFFER_SIZE},
};

static void test_dictionary(void) {
    for (size_t i = 0; i < sizeof dictionaries / sizeof *dictionaries; i++) {
        uint8_t table[20], work[20], area[32];
        fill(table, sizeof table), fill(work, sizeof work);
        uint32_t returned = ullimaqsu_dictionary(example_a, dictionaries[i].circuit, faults, dictionaries[i].faults, patterns,
                                                 dictionaries[i].patterns, table, dictionaries[i].table, work, dictionaries[i].work, area, 32);
        size_t made = returned ? 0 : sizeof table_of_a, worked = returned ? 0 : sizeof work_of_a;
        expect(returned == dictionaries[i].returned && answers(area, none), dictionaries[i].name);
        expect(same(table, table_of_a, made) && stays(table + made, sizeof table - made), "the table is filled, and nothing else");
        expect(same(work, work_of_a, worked) && stays(work + worked, sizeof work - worked), "the work memory is filled, and nothing else");
    }
}

/* Example A in lanes 0 to 3, its last fault line 0 stuck at 0: a line's 1-lanes and its 0-lanes, good lines and then faulty ones. In a spare
   lane all is X but for line 0, which is stuck there too, and line 3, an AND that reads it; line 4 is the OR of this 0 and of X. */
#define ALL ((uint64_t)-1)
static const uint64_t words_of_a[] = {
    1, 2 + 4, 1 + 2 + 8, 0, 0, 1 + 2 + 4 + 8, 1, 2 + 4, 1, 2 + 4,
    0, ALL, 1 + 2 + 8, 0, 0, 1 + 2 + 4 + 8, 0, ALL, 0, 1 + 2 + 4 + 8,
};

/* One of the dictionaries, 64 patterns at once, with so many words of work memory and an area of so many bytes. */
static void expect_lanes(size_t i, size_t words, size_t len, uint32_t expected) {
    uint8_t table[20], area[40];
    uint64_t work[24];
    fill(table, sizeof table), fill(area, sizeof area);
    for (size_t k = 0; k < 24; k++) work[k] = JUNK;
    uint32_t returned = ullimaqsu_dictionary_lanes(example_a, dictionaries[i].circuit, faults, dictionaries[i].faults, patterns,
                                                   dictionaries[i].patterns, table, dictionaries[i].table, work, words, area, len);
    size_t made = returned ? 0 : sizeof table_of_a, worked = returned ? 0 : 20;
    expect(returned == expected && (len == 32 ? answers(area, none) && stays(area + 32, 8) : stays(area, sizeof area)), dictionaries[i].name);
    expect(same(table, table_of_a, made) && stays(table + made, sizeof table - made), "in lanes the table is filled, and nothing else");
    for (size_t k = 0; k < 24; k++) expect(work[k] == (k < worked ? words_of_a[k] : JUNK), "the words are filled, and nothing else");
}

/* The same dictionaries in lanes, with two words for each byte of the work memory; then that of example A with each number of words, 2 N
   among them, and with areas of another size. */
static void test_lanes(void) {
    for (size_t i = 0; i < sizeof dictionaries / sizeof *dictionaries; i++)
        expect_lanes(i, 2 * dictionaries[i].work, 32, dictionaries[i].returned);
    for (size_t words = 0; words <= 24; words++) expect_lanes(0, words, 32, words == 20 ? ULLIMAQSU_FINE : ULLIMAQSU_BUFFER_SIZE);
    for (size_t len = 0; len <= 40; len++) expect_lanes(0, 20, len, len == 32 ? ULLIMAQSU_FINE : ULLIMAQSU_BUFFER_SIZE);
}

/* An AND of two inputs, the output. */
static const uint8_t and_of_two[] = {INPUT, INPUT, LINE(ULLIMAQSU_AND, 1, 0, 1)};

/* Its line 0 stuck at 1, and each entry that there is: with 0X the good value is 0 and the faulty one X, with X1 the good value is X and the
   output masked. Both dictionary makers find them. */
static void test_entries(void) {
    static const uint8_t line_0_at_1[] = {0, 0, 0, 1, 0, 0, 0, 0};
    static const uint8_t each[] = {0, 1, 0, 0, 0, 2, 2, 1}, expected[] = {F, P, ULLIMAQSU_UNKNOWN, P};
    uint8_t table[4], work[6], area[32];
    uint64_t words[12];
    uint32_t returned = ullimaqsu_dictionary(and_of_two, 24, line_0_at_1, 8, each, 8, table, 4, work, 6, area, 32);
    expect(returned == ULLIMAQSU_FINE && same(table, expected, 4), "fail, pass, unknown, and pass where the output is masked");
    fill(table, 4);
    returned = ullimaqsu_dictionary_lanes(and_of_two, 24, line_0_at_1, 8, each, 8, table, 4, words, 12, area, 32);
    expect(returned == ULLIMAQSU_FINE && same(table, expected, 4), "the same in lanes");
}

/* Example A's table, with other counts and lengths; where a byte is bad, it is this one. */
static const struct {
    const char *name;
    uint64_t faults, patterns;
    size_t table, marks;
    int bad;
    uint32_t returned;
    uint64_t place;
} compactions[] = {
    {"compaction of example A", 4, 4, 16, 4, -1, ULLIMAQSU_FINE, 0},
    {"no faults", 0, 4, 0, 4, -1, ULLIMAQSU_TABLE_SIZE, 0},
    {"257 patterns", 1, 257, 257, 257, -1, ULLIMAQSU_TABLE_SIZE, 0},
    {"counts whose product is 0 in 64 bits", (uint64_t)1 << 32, (uint64_t)1 << 32, 0, 0, -1, ULLIMAQSU_TABLE_SIZE, 0},
    {"a table too small, and nothing after it right", 4, 4, 15, 3, 7, ULLIMAQSU_TABLE_SIZE, 0},
    {"an entry above 2, and too few marks", 4, 4, 16, 3, 7, ULLIMAQSU_TABLE_BYTE, 7},
    {"too few marks", 4, 4, 16, 3, -1, ULLIMAQSU_BUFFER_SIZE, 0},
    {"too many marks", 4, 4, 16, 5, -1, ULLIMAQSU_BUFFER_SIZE, 0},
};

static void test_compact(void) {
    static const uint8_t marks_of_a[] = {1, 1, 0, 0};
    for (size_t i = 0; i < sizeof compactions / sizeof *compactions; i++) {
        uint8_t table[257] = {0}, marks[257], area[32];
        const uint64_t numbers[4] = {compactions[i].place};
        for (size_t k = 0; k < sizeof table_of_a; k++) table[k] = table_of_a[k];
        if (compactions[i].bad >= 0) table[compactions[i].bad] = 3;
        fill(marks, sizeof marks);
        uint32_t returned = ullimaqsu_compact(compactions[i].faults, compactions[i].patterns, table, compactions[i].table, marks,
                                              compactions[i].marks, area, 32);
        size_t marked = returned ? 0 : sizeof marks_of_a;
        expect(returned == compactions[i].returned && answers(area, numbers), compactions[i].name);
        expect(same(marks, marks_of_a, marked) && stays(marks + marked, sizeof marks - marked), "the marks are set, and nothing else");
    }
}

/* Example A's table with marks of another tool, with other counts and lengths; where a byte of the table is bad, it is this one. */
static const struct {
    const char *name;
    uint64_t faults, patterns;
    size_t table;
    int bad;
    uint8_t marks[5];
    size_t len;
    uint32_t returned;
    uint64_t numbers[4];
} audits[] = {
    {"audit of the compactor's list", 4, 4, 16, -1, {1, 1, 0, 0}, 4, ULLIMAQSU_FINE, {ULLIMAQSU_SOUND, 0, 0, 0}},
    {"audit of another sound list", 4, 4, 16, -1, {1, 0, 1, 0}, 4, ULLIMAQSU_FINE, {ULLIMAQSU_SOUND, 0, 0, 0}},
    {"two marks above 1", 4, 4, 16, -1, {0, 1, 2, 255}, 4, ULLIMAQSU_FINE, {ULLIMAQSU_BAD_MARK, 2, 0, 0}},
    {"two faults are lost", 4, 4, 16, -1, {1, 0, 0, 1}, 4, ULLIMAQSU_FINE, {ULLIMAQSU_LOST_FAULT, 1, 0, 0}},
    {"nothing is kept", 4, 4, 16, -1, {0, 0, 0, 0}, 4, ULLIMAQSU_FINE, {ULLIMAQSU_LOST_FAULT, 0, 0, 0}},
    {"three patterns can be spared", 4, 4, 16, -1, {1, 1, 1, 1}, 4, ULLIMAQSU_FINE, {ULLIMAQSU_SPARE_PATTERN, 1, 0, 0}},
    {"one pattern can be spared", 4, 4, 16, -1, {1, 0, 1, 1}, 4, ULLIMAQSU_FINE, {ULLIMAQSU_SPARE_PATTERN, 3, 0, 0}},
    {"no faults", 0, 4, 0, -1, {1, 1, 0, 0}, 4, ULLIMAQSU_TABLE_SIZE, {0, 0, 0, 0}},
    {"257 patterns", 1, 257, 257, -1, {1, 1, 0, 0}, 4, ULLIMAQSU_TABLE_SIZE, {0, 0, 0, 0}},
    {"counts whose product is 0 in 64 bits", (uint64_t)1 << 32, (uint64_t)1 << 32, 0, -1, {0}, 0, ULLIMAQSU_TABLE_SIZE, {0, 0, 0, 0}},
    {"a table too small, and nothing after it right", 4, 4, 15, 7, {2}, 3, ULLIMAQSU_TABLE_SIZE, {0, 0, 0, 0}},
    {"an entry above 2, too few marks, and a bad one", 4, 4, 16, 7, {2}, 3, ULLIMAQSU_TABLE_BYTE, {7, 0, 0, 0}},
    {"too few marks, and a bad one", 4, 4, 16, -1, {2}, 3, ULLIMAQSU_BUFFER_SIZE, {0, 0, 0, 0}},
    {"too many marks", 4, 4, 16, -1, {1, 1, 0, 0, 0}, 5, ULLIMAQSU_BUFFER_SIZE, {0, 0, 0, 0}},
};

static void test_audit(void) {
    for (size_t i = 0; i < sizeof audits / sizeof *audits; i++)
        for (size_t len = 0; len <= 40; len++) {
            uint8_t table[257] = {0}, before[257], marks[5], area[42];
            for (size_t k = 0; k < sizeof table_of_a; k++) table[k] = table_of_a[k];
            if (audits[i].bad >= 0) table[audits[i].bad] = 3;
            for (size_t k = 0; k < sizeof table; k++) before[k] = table[k];
            for (size_t k = 0; k < sizeof marks; k++) marks[k] = audits[i].marks[k];
            fill(area, sizeof area);
            uint32_t returned = ullimaqsu_audit(audits[i].faults, audits[i].patterns, table, audits[i].table, marks, audits[i].len, area + 1, len);
            expect(returned == (len == 32 ? audits[i].returned : ULLIMAQSU_BUFFER_SIZE), audits[i].name);
            expect(len == 32 ? answers(area + 1, audits[i].numbers) : stays(area + 1, 32), audits[i].name);
            expect(stays(area, 1) && stays(area + 33, 9), "the bytes around the answer area stay");
            expect(same(table, before, sizeof table) && same(marks, audits[i].marks, sizeof marks), "table and marks stay");
        }
}

/* FUP and FFF: the first tells the first fault from the third, the second alone fails the second fault. PPF and UPF: the first tells the first
   fault from the third too, but as no pattern fails the first fault, that is no need. */
static void test_lost_pair(void) {
    static const uint8_t
        fup_fff[] = {F, ULLIMAQSU_UNKNOWN, P, F, F, F},
        undetected[] = {P, P, F, ULLIMAQSU_UNKNOWN, P, F};
    static const uint8_t first[] = {1, 0}, second[] = {0, 1}, both[] = {1, 1};
    static const uint64_t fault_1[4] = {ULLIMAQSU_LOST_FAULT, 1}, pair_0_2[4] = {ULLIMAQSU_LOST_PAIR, 0, 2}, sound[4] = {ULLIMAQSU_SOUND};
    uint8_t area[32];
    expect(ullimaqsu_audit(3, 2, fup_fff, 6, first, 2, area, 32) == ULLIMAQSU_FINE && answers(area, fault_1), "FUP kept");
    expect(ullimaqsu_audit(3, 2, fup_fff, 6, second, 2, area, 32) == ULLIMAQSU_FINE && answers(area, pair_0_2), "FFF kept");
    expect(ullimaqsu_audit(3, 2, fup_fff, 6, both, 2, area, 32) == ULLIMAQSU_FINE && answers(area, sound), "FUP and FFF kept");
    expect(ullimaqsu_audit(3, 2, undetected, 6, second, 2, area, 32) == ULLIMAQSU_FINE && answers(area, sound), "pairs with an undetected fault");
}

/* Example A and the circuit whose output is always 0, for one of these faults, with other lengths. */
static const uint8_t always_0[] = {INPUT, NOT_OF(0, 0), LINE(ULLIMAQSU_AND, 1, 0, 1)};
static const uint8_t line_3_at_1[] = {3, 0, 0, 1, 0, 0, 0, 0}, line_3_at_0[] = {3, 0, 0, 0, 0, 0, 0, 0}, line_2_at_0[] = {2, 0, 0, 0, 0, 0, 0, 0};
static const struct {
    const char *name;
    const uint8_t *circuit;
    size_t circuit_len;
    const uint8_t *fault;
    size_t fault_len;
    uint64_t budget;
    size_t test, work;
    uint32_t returned;
    uint64_t numbers[4];
    uint8_t found[3];
} searches[] = {
    {"A, line 3 stuck at 1", example_a, 40, line_3_at_1, 8, 4, 3, 10, ULLIMAQSU_FINE, {ULLIMAQSU_TEST, 4, 0, 0}, {0, 0, 0}},
    {"A, line 3 stuck at 1, budget 3", example_a, 40, line_3_at_1, 8, 3, 3, 10, ULLIMAQSU_FINE, {ULLIMAQSU_GIVEN_UP, 3, 0, 0}, {JUNK, JUNK, JUNK}},
    {"A, line 3 stuck at 0", example_a, 40, line_3_at_0, 8, (uint64_t)-1, 3, 10, ULLIMAQSU_FINE, {ULLIMAQSU_TEST, 14, 0, 0}, {1, 1, 0}},
    {"always 0, stuck at 0", always_0, 24, line_2_at_0, 8, 3, 1, 6, ULLIMAQSU_FINE, {ULLIMAQSU_REDUNDANT, 3, 0, 0}, {JUNK, JUNK, JUNK}},
    {"always 0, stuck at 0, budget 2", always_0, 24, line_2_at_0, 8, 2, 1, 6, ULLIMAQSU_FINE, {ULLIMAQSU_GIVEN_UP, 2, 0, 0}, {JUNK, JUNK, JUNK}},
    {"always 0, stuck at 0, budget 0", always_0, 24, line_2_at_0, 8, 0, 1, 6, ULLIMAQSU_FINE, {ULLIMAQSU_GIVEN_UP, 0, 0, 0}, {JUNK, JUNK, JUNK}},
    {"no output, and nothing else right", example_a, 24, line_3_at_1, 7, 9, 2, 9, ULLIMAQSU_NO_OUTPUT, {0, 0, 0, 0}, {JUNK, JUNK, JUNK}},
    {"two faults", example_a, 40, faults, 16, 9, 3, 10, ULLIMAQSU_FAULTS_SIZE, {0, 0, 0, 0}, {JUNK, JUNK, JUNK}},
    {"no such line, and no lent memory", always_0, 24, line_3_at_1, 8, 9, 0, 0, ULLIMAQSU_FAULT_LAYOUT, {0, 0, 0, 0}, {JUNK, JUNK, JUNK}},
    {"a test buffer too small", example_a, 40, line_3_at_1, 8, 9, 2, 10, ULLIMAQSU_BUFFER_SIZE, {0, 0, 0, 0}, {JUNK, JUNK, JUNK}},
    {"a work memory too large", example_a, 40, line_3_at_1, 8, 9, 3, 11, ULLIMAQSU_BUFFER_SIZE, {0, 0, 0, 0}, {JUNK, JUNK, JUNK}},
};

static void test_search(void) {
    for (size_t i = 0; i < sizeof searches / sizeof *searches; i++) {
        uint8_t test[4], work[12], area[32];
        fill(test, sizeof test), fill(work, sizeof work);
        uint32_t returned = ullimaqsu_search(searches[i].circuit, searches[i].circuit_len, searches[i].fault, searches[i].fault_len,
                                             searches[i].budget, test, searches[i].test, work, searches[i].work, area, 32);
        size_t worked = returned || searches[i].budget == 0 ? 0 : searches[i].work;
        expect(returned == searches[i].returned && answers(area, searches[i].numbers), searches[i].name);
        expect(same(test, searches[i].found, 3) && stays(test + 3, 1), "the test buffer is written for a test alone");
        expect(stays(work + worked, sizeof work - worked), "nothing but the work memory is written");
        for (size_t k = 0; k < worked; k++) expect(work[k] <= 2, "the work memory holds values");
    }
}

/* Lines 0 to 3 inputs; 4 = AND(0, 1), 5 = OR(4, 2), a head line, since the XOR and the XNOR read it: 6 = XOR(5, 3), 7 = XNOR(5, 3), both outputs;
   8 = AND(6, 7), always 0, an output. So the head lines are 3 and 5. Line 4 is an output too, and not looked at. */
static const uint8_t tree[] = {
    INPUT, INPUT, INPUT, INPUT, LINE(ULLIMAQSU_AND, 1, 0, 1), LINE(ULLIMAQSU_OR, 0, 4, 2),
    LINE(ULLIMAQSU_XOR, 1, 5, 3), LINE(ULLIMAQSU_XNOR, 1, 5, 3), LINE(ULLIMAQSU_AND, 1, 6, 7)};
#define X 2
#define NO_TEST {JUNK, JUNK, JUNK, JUNK}
#define AS_LENT {JUNK, JUNK, JUNK, JUNK, JUNK, JUNK, JUNK, JUNK, JUNK, JUNK, JUNK, JUNK, JUNK, JUNK, JUNK, JUNK, JUNK, JUNK}
static const struct {
    const char *name;
    size_t circuit;
    uint8_t fault[9];
    size_t fault_len;
    uint64_t budget;
    size_t test, work;
    uint32_t returned;
    uint64_t numbers[4];
    uint8_t found[4], worked[18];
} head_searches[] = {
    {"a bound line stuck at 0: line 3 is 0, line 5 is 1 by lines 0 and 1", 72, {6, 0, 0, 0}, 8, 9, 4, 18, ULLIMAQSU_FINE, {ULLIMAQSU_TEST, 4},
     {1, 1, X, 0}, {X, X, X, 0, X, 1, 1, 0, 0, X, X, X, 0, X, 1, 0, 0, 0}},
    {"a pin of a bound line stuck at 1", 72, {6, 0, 1, 1}, 8, 9, 4, 18, ULLIMAQSU_FINE, {ULLIMAQSU_TEST, 3},
     {0, X, 0, 0}, {X, X, X, 0, X, 0, 0, 1, 0, X, X, X, 0, X, 0, 1, 1, 1}},
    {"a head line stuck at 1", 72, {5, 0, 0, 1}, 8, 3, 4, 18, ULLIMAQSU_FINE, {ULLIMAQSU_TEST, 3},
     {0, X, 0, 0}, {X, X, X, 0, X, 0, 0, 1, 0, X, X, X, 0, X, 1, 1, 0, 0}},
    {"the same with budget 2", 72, {5, 0, 0, 1}, 8, 2, 4, 18, ULLIMAQSU_FINE, {ULLIMAQSU_GIVEN_UP, 2},
     NO_TEST, {X, X, X, 0, X, X, X, X, X, X, X, X, 0, X, 1, 1, 0, 0}},
    {"the same with budget 0", 72, {5, 0, 0, 1}, 8, 0, 4, 18, ULLIMAQSU_FINE, {ULLIMAQSU_GIVEN_UP, 0}, NO_TEST, AS_LENT},
    {"always 0, stuck at 0", 72, {8, 0, 0, 0}, 8, (uint64_t)-1, 4, 18, ULLIMAQSU_FINE, {ULLIMAQSU_REDUNDANT, 7},
     NO_TEST, {X, X, X, 1, X, 1, 0, 1, 0, X, X, X, 1, X, 1, 0, 1, 0}},
    {"a pin of a head line: the search over patterns", 72, {5, 0, 1, 1}, 8, 9, 4, 18, ULLIMAQSU_FINE, {ULLIMAQSU_TEST, 5},
     {0, 0, 0, 0}, {0, 0, 0, 0, 0, 0, 0, 1, 0, 0, 0, 0, 0, 0, 1, 1, 0, 0}},
    {"no output, and nothing else right", 32, {9}, 7, 9, 3, 17, ULLIMAQSU_NO_OUTPUT, {0}, NO_TEST, AS_LENT},
    {"part of a fault", 72, {5, 0, 0, 1}, 7, 9, 3, 17, ULLIMAQSU_FAULTS_SIZE, {0}, NO_TEST, AS_LENT},
    {"no such line", 72, {9, 0, 0, 1}, 8, 9, 3, 17, ULLIMAQSU_FAULT_LAYOUT, {0}, NO_TEST, AS_LENT},
    {"a test buffer for each head line", 72, {5, 0, 0, 1}, 8, 9, 2, 18, ULLIMAQSU_BUFFER_SIZE, {0}, NO_TEST, AS_LENT},
    {"a work memory too small", 72, {5, 0, 0, 1}, 8, 9, 4, 17, ULLIMAQSU_BUFFER_SIZE, {0}, NO_TEST, AS_LENT},
};

static void test_search_heads(void) {
    for (size_t i = 0; i < sizeof head_searches / sizeof *head_searches; i++)
        for (size_t len = 31; len <= 33; len++) {
            uint8_t test[5], work[19], area[34];
            fill(test, sizeof test), fill(work, sizeof work), fill(area, sizeof area);
            uint32_t returned =
                ullimaqsu_search_heads(tree, head_searches[i].circuit, head_searches[i].fault, head_searches[i].fault_len, head_searches[i].budget,
                                       test, head_searches[i].test, work, head_searches[i].work, area, len);
            expect(returned == (len == 32 ? head_searches[i].returned : ULLIMAQSU_BUFFER_SIZE), head_searches[i].name);
            expect(len == 32 ? answers(area, head_searches[i].numbers) : stays(area, 32), head_searches[i].name);
            expect(len == 32 ? same(test, head_searches[i].found, 4) : stays(test, 4), "the test with its trees set");
            expect(len == 32 ? same(work, head_searches[i].worked, 18) : stays(work, 18), "the work memory of the last node");
            expect(stays(test + 4, 1) && stays(work + 18, 1) && stays(area + 32, 2), "nothing else is written");
        }
}

/* Example A's faults in one list, with budgets that are just enough, too small, without end and 0, and with other lengths; where a byte of the
   faults is bad, it is this one. */
static const struct {
    const char *name;
    size_t circuit, faults, budgets, outcomes, counts, tests, work;
    int bad;
    uint32_t returned;
    uint64_t place;
} list_searches[] = {
    {"list of example A", 40, 32, 4, 4, 4, 12, 10, -1, ULLIMAQSU_FINE, 0},
    {"no output, and nothing else right", 24, 31, 3, 3, 3, 11, 9, 19, ULLIMAQSU_NO_OUTPUT, 0},
    {"no faults, and nothing after them right", 40, 0, 3, 3, 3, 11, 9, -1, ULLIMAQSU_FAULTS_SIZE, 0},
    {"a stuck value above 1, and nothing after it right", 40, 32, 3, 3, 3, 11, 9, 19, ULLIMAQSU_FAULT_LAYOUT, 2},
    {"too few budgets", 40, 32, 3, 4, 4, 12, 10, -1, ULLIMAQSU_BUFFER_SIZE, 0},
    {"too many budgets", 40, 32, 5, 4, 4, 12, 10, -1, ULLIMAQSU_BUFFER_SIZE, 0},
    {"too few outcomes", 40, 32, 4, 3, 4, 12, 10, -1, ULLIMAQSU_BUFFER_SIZE, 0},
    {"too many outcomes", 40, 32, 4, 5, 4, 12, 10, -1, ULLIMAQSU_BUFFER_SIZE, 0},
    {"too few counts", 40, 32, 4, 4, 3, 12, 10, -1, ULLIMAQSU_BUFFER_SIZE, 0},
    {"too many counts", 40, 32, 4, 4, 5, 12, 10, -1, ULLIMAQSU_BUFFER_SIZE, 0},
    {"too few test bytes", 40, 32, 4, 4, 4, 11, 10, -1, ULLIMAQSU_BUFFER_SIZE, 0},
    {"too many test bytes", 40, 32, 4, 4, 4, 13, 10, -1, ULLIMAQSU_BUFFER_SIZE, 0},
    {"a work memory too small", 40, 32, 4, 4, 4, 12, 9, -1, ULLIMAQSU_BUFFER_SIZE, 0},
    {"a work memory too large", 40, 32, 4, 4, 4, 12, 11, -1, ULLIMAQSU_BUFFER_SIZE, 0},
};

static void test_search_all(void) {
    static const uint64_t budgets[5] = {14, 3, (uint64_t)-1, 0}, counts_of_a[] = {14, 3, 4, 0};
    static const uint8_t
        outcomes_of_a[] = {ULLIMAQSU_TEST, ULLIMAQSU_GIVEN_UP, ULLIMAQSU_TEST, ULLIMAQSU_GIVEN_UP},
        tests_of_a[] = {1, 1, 0, JUNK, JUNK, JUNK, 0, 0, 0, JUNK, JUNK, JUNK},
        last_work[] = {0, 0, 0, 0, 0, 0, 0, 1, 0, 1};
    for (size_t i = 0; i < sizeof list_searches / sizeof *list_searches; i++) {
        uint8_t list[sizeof faults], outcomes[5], tests[13], work[11], area[32];
        uint64_t counts[5];
        const uint64_t numbers[4] = {list_searches[i].place};
        for (size_t k = 0; k < sizeof faults; k++) list[k] = faults[k];
        if (list_searches[i].bad >= 0) list[list_searches[i].bad] = 2;
        for (size_t k = 0; k < 5; k++) counts[k] = JUNK;
        fill(outcomes, sizeof outcomes), fill(tests, sizeof tests), fill(work, sizeof work);
        uint32_t returned = ullimaqsu_search_all(example_a, list_searches[i].circuit, list, list_searches[i].faults, budgets,
                                                 list_searches[i].budgets, outcomes, list_searches[i].outcomes, counts,
                                                 list_searches[i].counts, tests, list_searches[i].tests, work, list_searches[i].work,
                                                 area, 32);
        size_t ended = returned ? 0 : 4, worked = returned ? 0 : sizeof last_work;
        expect(returned == list_searches[i].returned && answers(area, numbers), list_searches[i].name);
        expect(same(outcomes, outcomes_of_a, ended) && stays(outcomes + ended, 5 - ended), "an outcome for each fault, and nothing else");
        for (size_t k = 0; k < 5; k++) expect(counts[k] == (k < ended ? counts_of_a[k] : JUNK), "a count for each fault, and nothing else");
        expect(same(tests, tests_of_a, 3 * ended) && stays(tests + 3 * ended, 13 - 3 * ended), "the tests that are found, and nothing else");
        expect(same(work, last_work, worked) && stays(work + worked, sizeof work - worked), "the work of the last fault with a budget");
    }
}

/* Every outcome in one list: the output that is always 0, stuck at 0, at 1, and at 0 again with one node too few. */
static void test_outcomes(void) {
    static const uint8_t stuck[] = {2, 0, 0, 0, 0, 0, 0, 0, 2, 0, 0, 1, 0, 0, 0, 0, 2, 0, 0, 0, 0, 0, 0, 0};
    static const uint8_t expected[] = {ULLIMAQSU_REDUNDANT, ULLIMAQSU_TEST, ULLIMAQSU_GIVEN_UP};
    static const uint64_t budgets[] = {3, 3, 2};
    static const uint8_t last[] = {0, 1, 0, 0, 1, 0};
    uint8_t outcomes[] = {JUNK, JUNK, JUNK}, tests[] = {JUNK, JUNK, JUNK}, work[] = {JUNK, JUNK, JUNK, JUNK, JUNK, JUNK}, area[32];
    uint64_t counts[] = {JUNK, JUNK, JUNK};
    uint32_t returned = ullimaqsu_search_all(always_0, 24, stuck, 24, budgets, 3, outcomes, 3, counts, 3, tests, 3, work, 6, area, 32);
    expect(returned == ULLIMAQSU_FINE && same(outcomes, expected, 3), "redundant, test, given up");
    expect(counts[0] == 3 && counts[1] == 2 && counts[2] == 2, "the nodes of each");
    expect(tests[0] == JUNK && tests[1] == 0 && tests[2] == JUNK, "the one test");
    expect(same(work, last, 6), "the work of the last node looked at for the last fault");
}

/* Line 0 input, 1 = NOT 0 output, line 1 stuck at 0, with other lengths. */
static const uint8_t inverter[] = {INPUT, NOT_OF(1, 0)}, line_1_at_0[] = {1, 0, 0, 0, 0, 0, 0, 0};
static const int32_t words_of_inverter[] = {
    -3, -1, 0, 3, 1, 0, -5, 0, -2, 1, 0, 2, -1, 0, -4, 5, 0, 4, -5, 0,
    -6, 3, 4, 0, -6, -3, -4, 0, 6, -3, 4, 0, 6, 3, -4, 0, 6, 0,
};
static const struct {
    const char *name;
    size_t circuit, fault, words;
    uint32_t returned;
    uint64_t numbers[4];
} clause_lists[] = {
    {"clauses of an inverter", 16, 8, 38, ULLIMAQSU_FINE, {38, 12, 6, 0}},
    {"clauses of an inverter, and room to spare", 16, 8, 40, ULLIMAQSU_FINE, {38, 12, 6, 0}},
    {"37 words", 16, 8, 37, ULLIMAQSU_NO_ROOM, {38, 0, 0, 0}},
    {"no words", 16, 8, 0, ULLIMAQSU_NO_ROOM, {38, 0, 0, 0}},
    {"part of a circuit, and nothing else right", 15, 7, 0, ULLIMAQSU_CIRCUIT_SIZE, {0, 0, 0, 0}},
    {"part of a fault, and no words", 16, 7, 0, ULLIMAQSU_FAULTS_SIZE, {0, 0, 0, 0}},
};

static void test_clauses(void) {
    for (size_t i = 0; i < sizeof clause_lists / sizeof *clause_lists; i++) {
        int32_t words[42];
        uint8_t area[32];
        for (size_t k = 0; k < 42; k++) words[k] = JUNK;
        uint32_t returned = ullimaqsu_clauses(inverter, clause_lists[i].circuit, line_1_at_0, clause_lists[i].fault, words,
                                              clause_lists[i].words, area, 32);
        expect(returned == clause_lists[i].returned && answers(area, clause_lists[i].numbers), clause_lists[i].name);
        for (size_t k = 0; k < 42; k++)
            expect(words[k] == (returned || k >= 38 ? JUNK : words_of_inverter[k]), "the clauses are written, and nothing else");
    }
}

/* A selector of lines 0 and 1 by line 2, and its select pin stuck at 1: the faulty value is line 1. The patterns have both known values of the
   select, and X with equal sources and with unequal ones. */
static const uint8_t select_at_1[] = {3, 0, 3, 1, 0, 0, 0, 0};
static const uint8_t by_select[] = {0, 1, 0, 0, 1, 1, 1, 1, 2, 0, 1, 2, 0, 2, 0, 0, 0, 2};

static void test_selector_dictionaries(void) {
    static const uint8_t expected[] = {F, P, P, P, ULLIMAQSU_UNKNOWN, P}, last[] = {0, 0, 2, 0, 0, 0, 2, 0};
    static const uint64_t in_lanes[] = {
        4, 1 + 2 + 8 + 16 + 32, 1 + 2 + 4 + 8, 32, 2, 1 + 16, 2 + 4, 1 + 16 + 32,
        4, 1 + 2 + 8 + 16 + 32, 1 + 2 + 4 + 8, 32, 2, 1 + 16, 1 + 2 + 4 + 8, 32,
    };
    uint8_t table[7], work[9], area[32];
    uint64_t words[17];
    fill(table, sizeof table), fill(work, sizeof work);
    uint32_t returned = ullimaqsu_dictionary(selector, 32, select_at_1, 8, by_select, 18, table, 6, work, 8, area, 32);
    expect(returned == ULLIMAQSU_FINE && answers(area, none), "the dictionary of a selector");
    expect(same(table, expected, 6) && stays(table + 6, 1) && same(work, last, 8) && stays(work + 8, 1), "its table and work memory");

    fill(table, sizeof table);
    for (size_t k = 0; k < 17; k++) words[k] = JUNK;
    returned = ullimaqsu_dictionary_lanes(selector, 32, select_at_1, 8, by_select, 18, table, 6, words, 16, area, 32);
    expect(returned == ULLIMAQSU_FINE && answers(area, none) && same(table, expected, 6) && stays(table + 6, 1), "the same in lanes");
    for (size_t k = 0; k < 17; k++) expect(words[k] == (k < 16 ? in_lanes[k] : JUNK), "a selector's words, and nothing else");
}

/* The nodes are XXX, 0XX, 00X, which is left since both sources are 0, 01X and the test 010. */
static void test_selector_searches(void) {
    static const uint8_t found[] = {0, 1, 0, JUNK}, worked[] = {0, 1, 0, 0, 0, 1, 0, 1, JUNK};
    static const uint64_t budget[1] = {5}, test_of_5[4] = {ULLIMAQSU_TEST, 5};
    uint8_t test[4], work[9], outcome[] = {JUNK, JUNK}, area[32];
    uint64_t count[] = {JUNK, JUNK};
    fill(test, sizeof test), fill(work, sizeof work);
    uint32_t returned = ullimaqsu_search(selector, 32, select_at_1, 8, 5, test, 3, work, 8, area, 32);
    expect(returned == ULLIMAQSU_FINE && answers(area, test_of_5), "the search with a selector");
    expect(same(test, found, 4) && same(work, worked, 9), "its test and work memory");

    fill(test, sizeof test), fill(work, sizeof work);
    returned = ullimaqsu_search_all(selector, 32, select_at_1, 8, budget, 1, outcome, 1, count, 1, test, 3, work, 8, area, 32);
    expect(returned == ULLIMAQSU_FINE && answers(area, none), "the search for a list with a selector");
    expect(outcome[0] == ULLIMAQSU_TEST && outcome[1] == JUNK && count[0] == 5 && count[1] == JUNK, "its outcome and its count");
    expect(same(test, found, 4) && same(work, worked, 9), "its test and work memory");
}

static void test_selector_clauses(void) {
    static const uint64_t written[4] = {70, 20, 10};
    static const int32_t expected[] = {
        5, -7, 1, 0, 5, 7, -1, 0, -5, -7, 3, 0, -5, 7, -3, 0, 9, 0,
        -2, 1, 0, 2, -1, 0, -4, 3, 0, 4, -3, 0, -6, 5, 0, 6, -5, 0, 9, -8, 2, 0, 9, 8, -2, 0, -9, -8, 4, 0, -9, 8, -4, 0,
        -10, 7, 8, 0, -10, -7, -8, 0, 10, -7, 8, 0, 10, 7, -8, 0, 10, 0, JUNK,
    };
    int32_t words[71];
    uint8_t area[32];
    for (size_t k = 0; k < 71; k++) words[k] = JUNK;
    uint32_t returned = ullimaqsu_clauses(selector, 32, select_at_1, 8, words, 71, area, 32);
    expect(returned == ULLIMAQSU_FINE && answers(area, written), "the clauses of a selector");
    expect(same((const uint8_t *)words, (const uint8_t *)expected, sizeof words), "they are written, and nothing else");
}

static void test_pins(void) {
    static const uint8_t third[] = {2, 0, 3, 1, 0, 0, 0, 0}, fourth[] = {3, 0, 4, 1, 0, 0, 0, 0};
    uint8_t table[9], work[8], area[32];
    fill(table, sizeof table), fill(work, sizeof work);
    uint32_t returned = ullimaqsu_dictionary(and_of_two, 24, third, 8, by_select, 18, table, 9, work, 6, area, 32);
    expect(returned == ULLIMAQSU_FAULT_LAYOUT && answers(area, none), "an AND has no select pin");
    returned = ullimaqsu_dictionary(selector, 32, fourth, 8, by_select, 18, table, 6, work, 8, area, 32);
    expect(returned == ULLIMAQSU_FAULT_LAYOUT && answers(area, none), "a selector has no fourth pin");
    expect(stays(table, sizeof table) && stays(work, sizeof work), "nothing is written for a pin that is not there");
}

/* Texts in the bench notation. c17 has its gates before their sources and its inputs last, a comment, CR LF and tabs. */
#define INPUTS_8(x) "INPUT(" x "0)\nINPUT(" x "1)\nINPUT(" x "2)\nINPUT(" x "3)\nINPUT(" x "4)\nINPUT(" x "5)\nINPUT(" x "6)\nINPUT(" x "7)\n"
#define INPUTS_64 INPUTS_8("a") INPUTS_8("b") INPUTS_8("c") INPUTS_8("d") INPUTS_8("e") INPUTS_8("f") INPUTS_8("g") INPUTS_8("h")
#define NAND_OF(output, a, b) LINE(ULLIMAQSU_NAND, output, a, b)
static const char c17[] =
    "# c17, six NANDs\r\nOUTPUT(22)\r\nOUTPUT(23)\r\n23 = NAND(16, 19)\r\n22\t=\tNAND(10,16)\n19=NAND(11,7)\n16=NAND(2,11)\n"
    "11=NAND(3,6)\n10=NAND(1,3)\n\nINPUT(1)\nINPUT(2)\n INPUT ( 3 ) # the third\nINPUT(6)\nOUTPUT(22)\nINPUT(7)";
static const uint8_t records_of_c17[] = {
    INPUT, INPUT, INPUT, INPUT, INPUT, NAND_OF(0, 2, 3), NAND_OF(0, 5, 4), NAND_OF(0, 1, 5), NAND_OF(1, 7, 6), NAND_OF(0, 0, 2), NAND_OF(1, 9, 7)};
static const struct {
    const char *name, *text;
    size_t len, circuit;
    uint32_t returned;
    uint64_t number;
} benches[] = {
    {"c17", c17, sizeof c17 - 1, 16384, ULLIMAQSU_FINE, 11},
    {"input in small letters", "input(a)", 8, 16384, ULLIMAQSU_BENCH_SYNTAX, 5},
    {"a text that ends early, and a buffer too small", c17, sizeof c17 - 2, 16383, ULLIMAQSU_BENCH_SYNTAX, sizeof c17 - 2},
    {"a name defined nowhere", "INPUT(a)\nOUTPUT(b)", 18, 16384, ULLIMAQSU_BENCH_NAME, 16},
    {"a name defined twice", "INPUT(a)\nINPUT(a)", 17, 0, ULLIMAQSU_BENCH_NAME, 15},
    {"a gate behind a cycle", "INPUT(a)\nx=NOT(a)\ny=BUFF(z)\nz=OR(a,z)\nOUTPUT(y)", 47, 16384, ULLIMAQSU_BENCH_CYCLE, 1},
    {"no text at all", 0, 0, 16384, ULLIMAQSU_CIRCUIT_SIZE, 0},
    {"65 inputs, and no output", INPUTS_64 "INPUT(i)", 64 * 10 + 8, 16384, ULLIMAQSU_MANY_INPUTS, 0},
    {"no output, and no buffer", INPUTS_64, 64 * 10, 0, ULLIMAQSU_NO_OUTPUT, 0},
    {"a buffer too small", c17, sizeof c17 - 1, 16383, ULLIMAQSU_BUFFER_SIZE, 0},
    {"a buffer too large", c17, sizeof c17 - 1, 16385, ULLIMAQSU_BUFFER_SIZE, 0},
};

static void test_bench(void) {
    static uint8_t circuit[16385];
    for (size_t i = 0; i < sizeof benches / sizeof *benches; i++)
        for (size_t len = 31; len <= 33; len++) {
            uint8_t area[35];
            const uint64_t numbers[4] = {benches[i].number};
            fill(circuit, sizeof circuit), fill(area, sizeof area);
            uint32_t returned = ullimaqsu_bench((const uint8_t *)benches[i].text, benches[i].len, circuit, benches[i].circuit, area + 1, len);
            size_t read = returned ? 0 : sizeof records_of_c17;
            expect(returned == (len == 32 ? benches[i].returned : ULLIMAQSU_BUFFER_SIZE), benches[i].name);
            expect(len == 32 ? answers(area + 1, numbers) : stays(area + 1, 32), benches[i].name);
            expect(stays(area, 1) && stays(area + 33, 2), "the bytes around the answer area stay");
            expect(same(circuit, records_of_c17, read) && stays(circuit + read, sizeof circuit - read), "the records are written, and nothing else");
        }
}

/* The same texts, with as many places above or below 2,048 as the buffer has bytes above or below its size, or with none. The names of c17's
   lines: 1, 2, 3, 6, 7; 11, 19, 16, 23, 10, 22. */
static void test_bench_names(void) {
    static const uint32_t places_of_c17[] = {139, 148, 160, 182, 202, 106, 78, 92, 42, 119, 61};
    static uint32_t places[2049];
    for (size_t i = 0; i < sizeof benches / sizeof *benches; i++)
        for (size_t len = 31; len <= 33; len++) {
            uint8_t area[35];
            const uint64_t numbers[4] = {benches[i].number};
            size_t room = benches[i].circuit ? benches[i].circuit - 16384 + 2048 : 0;
            fill((uint8_t *)places, sizeof places), fill(area, sizeof area);
            uint32_t returned = ullimaqsu_bench_names((const uint8_t *)benches[i].text, benches[i].len, places, room, area + 1, len);
            size_t named = returned ? 0 : sizeof places_of_c17;
            expect(returned == (len == 32 ? benches[i].returned : ULLIMAQSU_BUFFER_SIZE), benches[i].name);
            expect(len == 32 ? answers(area + 1, numbers) : stays(area + 1, 32), benches[i].name);
            expect(stays(area, 1) && stays(area + 33, 2), "the bytes around the answer area stay");
            expect(same((const uint8_t *)places, (const uint8_t *)places_of_c17, named), "the places of the names are written");
            expect(stays((const uint8_t *)places + named, sizeof places - named), "the other places stay");
        }
}

/* Refusal 2 is the check's, with its byte, whichever entry reads the circuit; and nothing that is lent is written. */
static void test_handed_on(void) {
    static const uint8_t fault[8], pattern[2];
    static const uint64_t budget[1] = {9}, place[4] = {18};
    static const char *const entries[] = {"dictionary", "dictionary in lanes", "search", "search over head lines", "search for a list", "clauses",
                                          "unfolding", "dictionary of several steps"};
    const uint8_t *circuit = reads_itself;
    const size_t len = sizeof reads_itself;
    for (int i = 0; i < 8; i++) {
        uint8_t bytes[4], work[6], area[32];
        uint64_t words[12], count[1];
        int32_t clauses[80];
        fill(bytes, sizeof bytes), fill(work, sizeof work);
        fill((uint8_t *)words, sizeof words), fill((uint8_t *)count, sizeof count), fill((uint8_t *)clauses, sizeof clauses);
        uint32_t returned = i == 0   ? ullimaqsu_dictionary(circuit, len, fault, 8, pattern, 2, bytes, 1, work, 6, area, 32)
                            : i == 1 ? ullimaqsu_dictionary_lanes(circuit, len, fault, 8, pattern, 2, bytes, 1, words, 12, area, 32)
                            : i == 2 ? ullimaqsu_search(circuit, len, fault, 8, 9, bytes, 2, work, 6, area, 32)
                            : i == 3 ? ullimaqsu_search_heads(circuit, len, fault, 8, 9, bytes, 2, work, 6, area, 32)
                            : i == 4 ? ullimaqsu_search_all(circuit, len, fault, 8, budget, 1, bytes, 1, count, 1, bytes + 1, 2, work, 6, area, 32)
                            : i == 5 ? ullimaqsu_clauses(circuit, len, fault, 8, clauses, 80, area, 32)
                            : i == 6 ? ullimaqsu_unfold(circuit, len, 0, 0, 1, (uint8_t *)clauses, len, area, 32)
                                     : ullimaqsu_unfold_dictionary(circuit, len, 0, 0, 1, fault, 8, pattern, 2, bytes, 1, work, 6, area, 32);
        expect(returned == ULLIMAQSU_CIRCUIT_LAYOUT && answers(area, place), entries[i]);
        expect(stays(bytes, sizeof bytes) && stays(work, sizeof work), "bytes that are lent stay");
        expect(stays((uint8_t *)words, sizeof words) && stays((uint8_t *)count, sizeof count), "words that are lent stay");
        expect(stays((uint8_t *)clauses, sizeof clauses), "words for clauses stay");
    }
}

int main(void) {
    test_check();
    test_areas();
    test_dictionary();
    test_lanes();
    test_entries();
    test_compact();
    test_audit();
    test_lost_pair();
    test_suspects();
    test_clocked();
    test_search();
    test_search_heads();
    test_search_all();
    test_outcomes();
    test_clauses();
    test_control();
    test_selector_dictionaries();
    test_selector_searches();
    test_selector_clauses();
    test_pins();
    test_bench();
    test_bench_names();
    test_handed_on();
    printf("C test: %s\n", failures ? "FAILED" : "ok");
    return failures != 0;
}
