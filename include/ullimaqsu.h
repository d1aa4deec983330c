/* Ullimaqsu: proved test tools for combinational circuits and single stuck-at faults, for C99 and C++.
 *
 * Link with libullimaqsu.a, as `./ullimaqsu install` puts it. Every entry is total: it takes any bytes of any length, answers what is
 * described here and nothing else, keeps no state and writes nothing but what it was lent.
 *
 * Conventions
 *
 *   A slice is a pointer and then its length in elements. A slice of length 0 may have any pointer, NULL too. Slices do not overlap.
 *   What is read comes first, then lent memory, then the answer area.
 *   Numbers in records are little-endian, and so are the numbers of the answer.
 *
 *   Every entry returns ULLIMAQSU_FINE, which is 0, or the number of the refusal. The answer area is 32 bytes, four numbers of eight bytes each:
 *       after 0           the numbers named at the entry, then zeros;
 *       after a refusal   the place of what is wrong, then zeros. A refusal writes nothing else.
 *   An area of another size returns ULLIMAQSU_BUFFER_SIZE before every other check, and nothing at all is written.
 *
 * Circuit
 *
 *   1 to 2,048 records of 8 bytes, one a line; a line's number is its record's place, from 0. 1 to 64 lines are inputs.
 *       byte 0       its kind
 *       byte 1       1 if the line is an output, else 0
 *       bytes 2-3    first source, bytes 4-5 second source, bytes 6-7 select: lower than the line itself, or 0 where the kind has no such source
 *   A selector, which alone has a select, gives the value of its first source where the select is 0 and that of its second where it is 1; where
 *   the select is X it gives the value of both if that is known and the same, else X.
 *
 * Fault
 *
 *   A record of 8 bytes. A fault on the line shows wherever the line is read and at the output if it is one; a fault on a pin is seen by
 *   that gate alone.
 *       bytes 0-1    line
 *       byte 2       site: 0 the line itself, 1 its first pin, 2 its second pin, 3 its select pin; the kind must have that pin
 *       byte 3       the stuck value, 0 or 1
 *       bytes 4-7    zero
 *
 * Pattern, values and table
 *
 *   A pattern has one byte for each input, in line order: 0, 1, or 2 for X. Values of lines are written in the same way.
 *   A table has one row for each pattern and, in the row, one byte for each fault, an entry: pass, fail or unknown. A tester compares the
 *   outputs whose good value under the pattern is known; the others are masked.
 *
 * Clocked circuit
 *
 *   A circuit some of whose inputs are state lines: at each clock a state line takes the value that its data line had in the step before. A
 *   state record, of 4 bytes, says which they are, and there may be none.
 *       bytes 0-1    data line: any line of the circuit, an input or a state line too
 *       bytes 2-3    state line: an input that no earlier record has as its state line
 *   It runs for 1 to 8 steps. Unfolded over k steps it is a circuit of k times its N lines: line m of step i, from 1, is line (i-1)N+m. The
 *   records are those of the circuit with their sources in the same step, but from step 2 on a state line is a buffer of its data line one step
 *   earlier. The outputs of all steps are outputs, and so are the data lines of step k. Its inputs, in line order, are all inputs of step 1, the
 *   first state among them, and then of each later step those that are no state lines. Lines and inputs are no more than a circuit may have.
 *
 * State of suspects
 *
 *   The faults of a table that remain after what a tester has reported. No entry keeps it: C lends it, an area of exactly ULLIMAQSU_SUSPECTS
 *   bytes, of any content before it is opened. Opening and reports write every byte of it:
 *       bytes 0-7     faults, bytes 8-15 patterns, bytes 16-23 faults times patterns, bytes 24-31 faults remaining
 *       bytes 32-287  256 marks, a byte each: 1 where the fault remains, 0 where it does not and from the number of faults on
 *   It may be read, copied and kept. Bytes that are not so are those of no opened state, and any one byte that has changed is noticed.
 *
 * Text in the bench notation
 *
 *   Up to 32,768 bytes. A line, ended by LF or by the text's end, has one statement or none, and after it may have a comment, from # to its
 *   end, of any bytes but LF.
 *       INPUT(a)          a is an input
 *       OUTPUT(y)         y is an output; written again it counts once
 *       y = NAND(a, b)    y is a gate: BUFF or NOT with one source, AND, NAND, OR, NOR, XOR or XNOR with two; a selector has no name here
 *   A name is any 1 to 16 letters, digits or underscores, the words above among them. It is defined once, as an input or a gate, anywhere in
 *   the text. Spaces, tabs and CR may stand anywhere but inside a word.
 *
 * Kinds, entries, outcomes, findings and refusals are numbers; each has a name below.
 */
#ifndef ULLIMAQSU_H
#define ULLIMAQSU_H

#if __STDC_HOSTED__
#include <stddef.h>
#include <stdint.h>
#else /* a freestanding compiler may have no headers at hand */
typedef __SIZE_TYPE__ size_t;
typedef __UINT8_TYPE__ uint8_t;
typedef __UINT32_TYPE__ uint32_t;
typedef __INT32_TYPE__ int32_t;
typedef __UINT64_TYPE__ uint64_t;
#endif

/* Refusals: name, number, what it says, and what its place counts ("" where the place is always 0). They are checked in this order, and the
   first that applies is given, with the lowest place; but compactor and audit check 12 and 13 before the size of the marks, both readers
   of a bench text 14 to 16 first, then 1, 4 and 5 on the records that the text makes, then the size of the buffer, the entries of a state
   of suspects the state's size first, then 22, then 12, 13 and 17, and the size of the marks last, and those of a clocked circuit 21, 18 and
   19 after 5.
   No refusal has the number 3. It stood for no input, and past 2 there always is one: line 0, below which there is no line for a gate to read.
   2: the place is where, in the first line that breaks its layout, the first field begins that breaks its rule, also where only its second byte is
   wrong. Divided by 8 it gives the line, and what is left over is where that field begins in a record (ULLIMAQSU_FIELDS).
   14: the place is the first byte such that no right text begins with the bytes up to it, or byte 32,768, or the length of a text that ends
   early. 15: the first byte of the name, where it is used or defined a second time. 16: gates alone are counted, from 0, in the text's order.
   18: the first bad record, of a state line that is named again the later one; 0 where the bytes are no multiple of 4.
   What prints these words takes them from here, as examples/front_end.c does. */
#define ULLIMAQSU_REFUSALS(each) \
    each(ULLIMAQSU_CIRCUIT_SIZE,    1, "the circuit is not a multiple of 8 bytes, empty, or above 2,048 records", "") \
    each(ULLIMAQSU_CIRCUIT_LAYOUT,  2, "a circuit record breaks its layout", "byte") \
    each(ULLIMAQSU_MANY_INPUTS,     4, "the circuit has more than 64 inputs", "") \
    each(ULLIMAQSU_NO_OUTPUT,       5, "the circuit has no output", "") \
    each(ULLIMAQSU_FAULTS_SIZE,     6, "the faults are not a multiple of 8 bytes, empty, or above 256 records (search and clauses for one fault: not 8 bytes)", "") \
    each(ULLIMAQSU_FAULT_LAYOUT,    7, "a fault record breaks its layout or names no line", "record") \
    each(ULLIMAQSU_PATTERNS_SIZE,   8, "the patterns are not a multiple of the inputs, empty, or above 256", "") \
    each(ULLIMAQSU_PATTERN_BYTE,    9, "a pattern byte is above 2", "byte") \
    each(ULLIMAQSU_BUFFER_SIZE,    10, "a lent buffer has not its exact size", "") \
    each(ULLIMAQSU_NO_ROOM,        11, "the clauses do not fit the lent words", "words needed:") \
    each(ULLIMAQSU_TABLE_SIZE,     12, "a count of faults or patterns is outside 1 to 256, or the table is not of their product (report to suspects: or a count is other than at opening)", "") \
    each(ULLIMAQSU_TABLE_BYTE,     13, "a table byte is above 2", "byte") \
    each(ULLIMAQSU_BENCH_SYNTAX,   14, "the text goes on or ends as no text in the bench notation does", "byte") \
    each(ULLIMAQSU_BENCH_NAME,     15, "a name is used and defined nowhere, or defined a second time", "byte") \
    each(ULLIMAQSU_BENCH_CYCLE,    16, "a gate depends on itself, or on one that does", "gate") \
    each(ULLIMAQSU_NO_PATTERN,     17, "the number of the pattern is not below the number of patterns", "") \
    each(ULLIMAQSU_STATE_RECORDS,  18, "the state records are not a multiple of 4 bytes, or one names no line, a state line that is no input, or one that is named before", "record") \
    each(ULLIMAQSU_UNFOLDED_SIZE,  19, "the circuit has more than 2,048 lines or 64 inputs when it is unfolded", "") \
    each(ULLIMAQSU_STEP_COUNT,     21, "the number of steps is outside 1 to 8", "") \
    each(ULLIMAQSU_NOT_OPENED,     22, "the state of suspects was never opened, or is damaged", "")

/* The fields of a circuit record in layout order: the first byte in the record, the first of the kinds that have the field, its name, and what is
   wrong with a number at the place of refusal 2, where the line's kind has the field and where it lacks it. Fields from byte 2 on have two
   bytes. */
#define ULLIMAQSU_FIELDS(each) \
    each(0, 0, "kind",           "is no kind", "") \
    each(1, 0, "output",         "is neither 0 nor 1", "") \
    each(2, 1, "first source",   "is not lower than the line", "is not 0, and the line's kind has no first source") \
    each(4, 3, "second source",  "is not lower than the line", "is not 0, and the line's kind has no second source") \
    each(6, 9, "select",         "is not lower than the line", "is not 0, and the line's kind has no select")

/* What every entry returns. */
enum ullimaqsu_refusal {
#define ULLIMAQSU_NAMED(name, number, says, counts) name = number,
    ULLIMAQSU_REFUSALS(ULLIMAQSU_NAMED)
#undef ULLIMAQSU_NAMED
    ULLIMAQSU_FINE = 0 /* nothing is refused */
};

/* How a search ends. */
enum ullimaqsu_outcome {
    ULLIMAQSU_TEST = 0,      /* there is a test */
    ULLIMAQSU_REDUNDANT = 1, /* there is none */
    ULLIMAQSU_GIVEN_UP = 2   /* the search would look at more nodes than the budget allows */
};

/* An entry of a table. */
enum ullimaqsu_entry {
    ULLIMAQSU_PASS = 0,   /* at every compared output the faulty value is known and equal: however the X's are filled, no compared output differs */
    ULLIMAQSU_FAIL = 1,   /* at some compared output the faulty value is known and differs: however the X's are filled, that output differs */
    ULLIMAQSU_UNKNOWN = 2 /* neither */
};

/* What is found of a kept list: that it is sound, or the first of the others that holds. */
enum ullimaqsu_finding {
    ULLIMAQSU_SOUND = 0,        /* none of the others: every need is met, and no kept pattern can be spared */
    ULLIMAQSU_BAD_MARK = 1,     /* a mark is neither 0 nor 1 */
    ULLIMAQSU_LOST_FAULT = 2,   /* a detected fault is failed by no kept pattern */
    ULLIMAQSU_LOST_PAIR = 3,    /* two detected faults that are told apart are told apart by no kept pattern */
    ULLIMAQSU_SPARE_PATTERN = 4 /* without this pattern the others that are kept still meet every need */
};

/* What a line is. An input has no source, a buffer and a NOT have one, the others two, and a selector also has its select. */
enum ullimaqsu_kind {
    ULLIMAQSU_INPUT = 0,
    ULLIMAQSU_BUFFER = 1,
    ULLIMAQSU_NOT = 2,
    ULLIMAQSU_AND = 3,
    ULLIMAQSU_NAND = 4,
    ULLIMAQSU_OR = 5,
    ULLIMAQSU_NOR = 6,
    ULLIMAQSU_XOR = 7,
    ULLIMAQSU_XNOR = 8,
    ULLIMAQSU_SELECTOR = 9
};

/* How many bytes a state of suspects has. */
#define ULLIMAQSU_SUSPECTS 288

#ifdef __cplusplus
extern "C" {
#endif

/* The circuit check. Refusals 1, 2, 4 and 5.
   Answer: the numbers of lines, inputs and outputs. */
uint32_t ullimaqsu_check(const uint8_t *circuit, size_t circuit_len,
                         uint8_t *answer, size_t answer_len);

/* The dictionary maker. Refusals 1, 2 and 4 to 10. N is the number of lines.
   Fills the table, one entry for each pattern and fault: its size is exactly faults times patterns. The work memory, exactly 2 N bytes, then
   holds the good and after them the faulty values of all lines, of the last pattern with the last fault.
   Answer: nothing but that it is done. */
uint32_t ullimaqsu_dictionary(const uint8_t *circuit, size_t circuit_len,
                              const uint8_t *faults, size_t faults_len,
                              const uint8_t *patterns, size_t patterns_len,
                              uint8_t *table, size_t table_len,
                              uint8_t *work, size_t work_len,
                              uint8_t *answer, size_t answer_len);

/* The dictionary maker that carries 64 patterns at once, one in each bit of a word. Refusals 1, 2 and 4 to 10. N is the number of lines.
   Fills the table as ullimaqsu_dictionary does. The patterns go in groups of 64, the last of which may have fewer: its spare lanes carry a
   pattern of all X. The work memory, exactly 4 N words, then holds the last group with the last fault. Bit i belongs to the group's pattern
   i: at word 2k it is set where the good value of line k is 1, at word 2k+1 where it is 0, and at neither where it is X; the faulty values
   stand 2 N words further on. What is stuck is stuck in the spare lanes too.
   Answer: nothing but that it is done. */
uint32_t ullimaqsu_dictionary_lanes(const uint8_t *circuit, size_t circuit_len,
                                    const uint8_t *faults, size_t faults_len,
                                    const uint8_t *patterns, size_t patterns_len,
                                    uint8_t *table, size_t table_len,
                                    uint64_t *work, size_t work_len,
                                    uint8_t *answer, size_t answer_len);

/* The unfolding of a clocked circuit. Refusals 1, 2, 4, 5, then 21, 18, 19, then 10. N is the number of lines, k that of steps.
   Writes the unfolded circuit, which ullimaqsu_check accepts: the buffer has exactly 8 k N bytes. Under every pattern line m of step i has the
   value that the clocked circuit's line m has after i-1 clocks.
   Answer: the number of its lines, k N. */
uint32_t ullimaqsu_unfold(const uint8_t *circuit, size_t circuit_len,
                          const uint8_t *states, size_t states_len,
                          uint64_t steps,
                          uint8_t *unfolded, size_t unfolded_len,
                          uint8_t *answer, size_t answer_len);

/* The dictionary maker for a clocked circuit. Refusals 1, 2, 4, 5, then 21, 18, 19, then 6 to 10. N is the number of lines, k that of steps.
   The faults are the clocked circuit's, and each is there in all steps at once: a state line that is stuck shows its stuck value in every step,
   whatever its data line has. A pattern has one byte for each input of the unfolded circuit.
   Fills the table as ullimaqsu_dictionary does, with the outputs of the unfolded circuit: its size is exactly faults times patterns. The work
   memory, exactly 2 k N bytes, then holds the good and after them the faulty values of all lines, step by step, of the last pattern with the
   last fault.
   Answer: nothing but that it is done. */
uint32_t ullimaqsu_unfold_dictionary(const uint8_t *circuit, size_t circuit_len,
                                     const uint8_t *states, size_t states_len,
                                     uint64_t steps,
                                     const uint8_t *faults, size_t faults_len,
                                     const uint8_t *patterns, size_t patterns_len,
                                     uint8_t *table, size_t table_len,
                                     uint8_t *work, size_t work_len,
                                     uint8_t *answer, size_t answer_len);

/* The compactor. Refusals 12, 13, then 10.
   The needs of the whole table are that each detected fault stays detected, and that each pair of detected faults told apart, one failing
   and the other passing under some pattern, stays told apart. From the last pattern to the first, a pattern is dropped exactly if those
   still kept without it meet every need. Marks, one byte for each pattern: 1 kept, 0 dropped.
   Answer: nothing but that it is done. */
uint32_t ullimaqsu_compact(uint64_t fault_count, uint64_t pattern_count,
                           const uint8_t *table, size_t table_len,
                           uint8_t *marks, size_t marks_len,
                           uint8_t *answer, size_t answer_len);

/* The audit of a kept list, whichever tool has made it. Refusals 12, 13, then 10.
   Marks and needs are those of the compactor, whose own lists are always sound; others may be sound too. Where several findings hold, the
   one with the lowest number above 0 is given, at its lowest place: of lost pairs that with the lowest first fault, and of these the one with
   the lowest second. Nothing but the answer is written.
   Answer: the finding, and its place, counted from 0: the mark; the fault; the lower fault of the pair and the higher one; the pattern. */
uint32_t ullimaqsu_audit(uint64_t fault_count, uint64_t pattern_count,
                         const uint8_t *table, size_t table_len,
                         const uint8_t *marks, size_t marks_len,
                         uint8_t *answer, size_t answer_len);

/* Opens a state of suspects. Refusals 10 of the state, then 12, 13.
   Every fault of the table remains, whatever the state held before.
   Answer: the number of faults remaining, which are all. */
uint32_t ullimaqsu_suspects_open(uint64_t fault_count, uint64_t pattern_count,
                                 const uint8_t *table, size_t table_len,
                                 uint8_t *state, size_t state_len,
                                 uint8_t *answer, size_t answer_len);

/* Reports to an opened state that a pattern failed or passed. Refusals 10 of the state, then 22, 12, 13, 17.
   `failed` is 0 where it passed, and any other number where it failed. Faults whose entry of this pattern is pass where it failed, or fail where
   it passed, remain no longer; unknown never counts against a fault. So a fault remains exactly if no pattern reported failed has its entry
   pass and none reported passed has it fail. Reports may come in any order and repeat, and of such as contradict each other both are held. The
   table is lent again for each, with the counts as at opening, and the entry that it has then counts. A fault never comes back.
   Answer: the number of faults remaining, which are the marks set. */
uint32_t ullimaqsu_suspects_report(uint64_t fault_count, uint64_t pattern_count,
                                   const uint8_t *table, size_t table_len,
                                   uint64_t pattern, uint64_t failed,
                                   uint8_t *state, size_t state_len,
                                   uint8_t *answer, size_t answer_len);

/* The faults that remain in an opened state, which stays. Refusals 10 of the state, then 22, then 10 of the marks.
   Marks, one byte for each fault as at opening: 1 remains, 0 does not.
   Answer: the numbers of faults remaining, faults and patterns. */
uint32_t ullimaqsu_suspects_marks(const uint8_t *state, size_t state_len,
                                  uint8_t *marks, size_t marks_len,
                                  uint8_t *answer, size_t answer_len);

/* The test search, for one fault. Refusals 1, 2, 4 to 7 and 10. N is the number of lines, n of inputs.
   A node is a pattern; the first is all X. A node that fails is the test. One at which every output is known in both circuits and equal
   is left. At any other the first X is set to 0 and, when that side is finished, to 1. The budget is the most nodes that are looked at:
   the search gives up exactly if without a budget it would look at more.
   The test buffer, exactly n bytes, is written only for a test. The work memory, exactly 2 N bytes, then holds the good and after them the
   faulty values of the last node looked at; with budget 0 it stays.
   Answer: the outcome, and the number of nodes looked at. */
uint32_t ullimaqsu_search(const uint8_t *circuit, size_t circuit_len,
                          const uint8_t *fault, size_t fault_len,
                          uint64_t budget,
                          uint8_t *test, size_t test_len,
                          uint8_t *work, size_t work_len,
                          uint8_t *answer, size_t answer_len);

/* The test search that decides at head lines, for one fault. Refusals 1, 2, 4 to 7 and 10. N is the number of lines, n of inputs.
   A line branches if two or more pins read it, each pin of a gate counted. It is bound if one of its pins reads a line that branches or is
   bound, else free. A head line is a free line that branches or that a bound line reads; before it lies a tree of free lines.
   For a fault at a bound line or at one of its pins, and for a head line itself stuck, a node has one value for each head line, in line order;
   all other free lines are X, and their outputs are not looked at. Otherwise nodes, budget and outcome are those of ullimaqsu_search. For any
   other fault, at a pin of a head line too, this is ullimaqsu_search.
   The test buffer, exactly n bytes, is written only for a test; where the search decides at head lines, with the trees set from these down: where
   a value of its first source alone makes a gate's value, that source has it and the others are X; else AND, NAND, OR and NOR set both sources,
   XOR and XNOR the first to 0 and the second as it must be, a selector its select to 0 and its first source. The work memory, exactly 2 N bytes,
   then holds the good and after them the faulty values of the last node looked at, where the search decides at head lines with X on all free
   lines but these, for a test too; with budget 0 it stays.
   Answer: the outcome, and the number of nodes looked at, which may be more than ullimaqsu_search needs. Where both reach a verdict it is the
   same. */
uint32_t ullimaqsu_search_heads(const uint8_t *circuit, size_t circuit_len,
                                const uint8_t *fault, size_t fault_len,
                                uint64_t budget,
                                uint8_t *test, size_t test_len,
                                uint8_t *work, size_t work_len,
                                uint8_t *answer, size_t answer_len);

/* The test search, for a list of faults with one budget each. Refusals 1, 2, 4 to 7 and 10. N is the number of lines, n of inputs.
   Does in one call what single searches do, one after the other with the same work memory. The results of a fault are its outcome, the count
   of nodes looked at, and n test bytes, written only for a test. Budgets, outcomes and counts are exactly as many as the faults, the test
   bytes n times as many. The work memory, exactly 2 N bytes, ends as the last of the searches leaves it; one with budget 0 leaves it as the
   one before did.
   Answer: nothing but that it is done. */
uint32_t ullimaqsu_search_all(const uint8_t *circuit, size_t circuit_len,
                              const uint8_t *faults, size_t faults_len,
                              const uint64_t *budgets, size_t budgets_len,
                              uint8_t *outcomes, size_t outcomes_len,
                              uint64_t *counts, size_t counts_len,
                              uint8_t *tests, size_t tests_len,
                              uint8_t *work, size_t work_len,
                              uint8_t *answer, size_t answer_len);

/* The clause writer, for one fault. Refusals 1, 2, 4 to 7 and 11. N is the number of lines.
   Variables: the good value of line k is 2k+1, its faulty value 2k+2, the stuck value 2N+1, the difference at the j-th output, from 0 in
   line order, 2N+2+j. Clauses, in this order, each closed by a 0, a negated variable negative: the good gates in line order; the stuck
   value; the faulty lines in line order, where the stuck line or pin reads the stuck value and an input its good value; the differences;
   one clause of all differences. An input vector detects the fault exactly if it extends to an assignment that satisfies all of them, so
   they can't be satisfied exactly if the fault is redundant. Words after the last clause stay.
   Answer: the numbers of words, clauses and variables (2N+1 and the outputs). */
uint32_t ullimaqsu_clauses(const uint8_t *circuit, size_t circuit_len,
                           const uint8_t *fault, size_t fault_len,
                           int32_t *words, size_t words_len,
                           uint8_t *answer, size_t answer_len);

/* How hard each line is to set: its chance of 1 and its chance of 0. Refusals 1, 2, 4, 5, then 10. N is the number of lines.
   ones[k] is the chance of 1 of line k and zeros[k] that of 0; there are exactly N of each. An input has 1 and 1. A pin sees the chances of the
   line that it reads, but halves of them where two or more pins of the circuit read that line; each pin of a gate is counted, and being an output
   is no reading. Where p, q and s stand for what the pins 1, 2 and 3 see, with 1 or 0 behind them for the value, a line has
       buffer      1: p1                                0: p0                                NOT exchanges the two
       AND         1: p1 q1                             0: the larger of p0 and q0           NAND exchanges the two
       OR          1: the larger of p1 and q1           0: p0 q0                             NOR exchanges the two
       XOR         1: the larger of p0 q1 and p1 q0     0: the larger of p0 q0 and p1 q1     XNOR exchanges the two
       selector    1: the larger of s0 p1 and s1 q1     0: the larger of s0 p0 and s1 q0
   and 2^-500 where this is lower. So every chance is a power of one half, from 1 down to 2^-500, and as a double it is exact.
   Answer: nothing but that it is done. */
uint32_t ullimaqsu_control(const uint8_t *circuit, size_t circuit_len,
                           double *ones, size_t ones_len,
                           double *zeros, size_t zeros_len,
                           uint8_t *answer, size_t answer_len);

/* The bench reader. Refusals 14, 15, 16, then 1, 4, 5 on the records, then 10.
   Writes the circuit of a text: the inputs in the order in which they appear, then always the earliest gate in the text whose sources are
   placed. Under every pattern each line has the value that the text's equation for its name gives. The buffer has exactly 16,384 bytes, room
   for the largest circuit; what follows the records stays.
   Answer: the number of records. */
uint32_t ullimaqsu_bench(const uint8_t *text, size_t text_len,
                         uint8_t *circuit, size_t circuit_len,
                         uint8_t *answer, size_t answer_len);

/* The names of a bench text's lines. Refusals 14, 15, 16, then 1, 4, 5 on the records, then 10, as for the bench reader.
   Writes a place for each line of the records that ullimaqsu_bench writes of this text, in line order: the first byte, in the text, of the
   line's name where the text defines it, in its INPUT or at the beginning of its equation. The name is the letters, digits and underscores
   from there on. There are exactly 2,048 places, room for the largest circuit; those that follow the last line's stay.
   Answer: the number of records. */
uint32_t ullimaqsu_bench_names(const uint8_t *text, size_t text_len,
                               uint32_t *places, size_t places_len,
                               uint8_t *answer, size_t answer_len);

#ifdef __cplusplus
}
#endif
#endif
