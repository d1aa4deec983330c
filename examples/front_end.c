/* A front end in C, to be copied: reads a circuit, its faults and its patterns, and prints the fault dictionary with the patterns that are
   kept, and a test for each fault.

   ./ullimaqsu install tools
   cc -Itools/include examples/front_end.c -Ltools/lib -lullimaqsu -o front_end
   ./front_end examples/a/circuit.rec examples/a/faults.rec examples/a/patterns.rec */
#include "ullimaqsu.h"

#if __STDC_HOSTED__
#include <stdio.h>
#else /* a freestanding compiler may have no headers at hand */
typedef struct file FILE;
FILE *fopen(const char *, const char *);
size_t fread(void *, size_t, size_t, FILE *);
int fclose(FILE *);
int printf(const char *, ...);
#endif

/* The most that is accepted, and one byte more, so that a file that is too long is refused. */
#define CIRCUIT (8 * 2048 + 1)
#define FAULTS (8 * 256 + 1)
#define PATTERNS (64 * 256 + 1)

/* Nodes that the search may look at for one fault. */
#define BUDGET 1000000

struct file_of {
    const uint8_t *at;
    size_t len;
};

static uint8_t answer[32];

/* The k-th number of the answer. */
static unsigned long long number(int k) {
    unsigned long long n = 0;
    for (int i = 7; i >= 0; i--) n = n << 8 | answer[8 * k + i];
    return n;
}

/* What each refusal says, and what its place counts, if anything: the header's words. */
static const struct {
    uint32_t number;
    const char *says, *counts;
} refusals[] = {
#define REFUSAL(name, number, says, counts) {name, says, counts},
    ULLIMAQSU_REFUSALS(REFUSAL)
#undef REFUSAL
};

/* The fields of a circuit record: the first byte, the first kind that has the field, its name, and what is wrong where it is had and lacked. */
static const struct {
    unsigned first, kind;
    const char *name, *had, *lacked;
} fields[] = {
#define FIELD(first, kind, name, had, lacked) {first, kind, name, had, lacked},
    ULLIMAQSU_FIELDS(FIELD)
#undef FIELD
};

/* Says so where a part refuses. */
static int refused(const char *part, uint32_t refusal) {
    if (refusal == ULLIMAQSU_FINE) return 0;
    printf("%s: refusal %u", part, (unsigned)refusal);
    for (size_t i = 0; i < sizeof refusals / sizeof *refusals; i++) {
        if (refusals[i].number != refusal) continue;
        printf(": %s", refusals[i].says);
        if (*refusals[i].counts) printf(" (%s %llu)", refusals[i].counts, number(0));
    }
    printf("\n");
    return 1;
}

/* Says which field of which line is at the place of refusal 2, and what is wrong with its number. */
static int layout_refused(const uint8_t *circuit, size_t place) {
    unsigned line = place / 8, first = place % 8, kind = circuit[8 * line];
    unsigned value = first < 2 ? circuit[place] : circuit[place] + 256u * circuit[place + 1];
    printf("circuit: refusal %u: line %u, ", (unsigned)ULLIMAQSU_CIRCUIT_LAYOUT, line);
    for (size_t i = 0; i < sizeof fields / sizeof *fields; i++) {
        if (fields[i].first != first) continue;
        printf("%s (byte %u): %u %s\n", fields[i].name, (unsigned)place, value, fields[i].kind <= kind ? fields[i].had : fields[i].lacked);
    }
    return 1;
}

/* As much of a file as there is room for; an absent one is empty. */
static struct file_of load(const char *path, uint8_t *at, size_t room) {
    struct file_of file = {at, 0};
    FILE *from = fopen(path, "rb");
    if (from) {
        file.len = fread(at, 1, room, from);
        fclose(from);
    }
    return file;
}

/* A line for each pattern: its number, whether it is kept, and F fail, P pass or U unknown for each fault. */
static int print_dictionary(struct file_of circuit, struct file_of faults, struct file_of patterns, size_t lines, size_t inputs) {
    static uint8_t table[256 * 256], marks[256], work[2 * 2048];
    size_t f = faults.len / 8, p = patterns.len / inputs;
    /* more than 256 are refused, whatever is lent */
    size_t entries = f <= 256 && p <= 256 ? f * p : 0;
    if (refused("dictionary", ullimaqsu_dictionary(circuit.at, circuit.len, faults.at, faults.len, patterns.at, patterns.len, table, entries,
                                                   work, 2 * lines, answer, sizeof answer)))
        return 0;
    if (refused("compactor", ullimaqsu_compact(f, p, table, entries, marks, p, answer, sizeof answer))) return 0;
    for (size_t i = 0; i < p; i++) {
        printf("pattern %u %s ", (unsigned)i, marks[i] ? "kept   " : "dropped");
        for (size_t j = 0; j < f; j++) printf("%c", "PFU"[table[i * f + j]]);
        printf("\n");
    }
    return 1;
}

/* A test for a fault, where there is one. */
static int print_test(struct file_of circuit, const uint8_t *fault, size_t lines, size_t inputs) {
    uint8_t test[64], work[2 * 2048];
    if (refused("search", ullimaqsu_search(circuit.at, circuit.len, fault, 8, BUDGET, test, inputs, work, 2 * lines, answer, sizeof answer)))
        return 0;
    printf("line %u site %u stuck %u: ", fault[0] + 256u * fault[1], (unsigned)fault[2], (unsigned)fault[3]);
    unsigned long long nodes = number(1);
    switch (number(0)) {
    case ULLIMAQSU_TEST:
        printf("test ");
        for (size_t i = 0; i < inputs; i++) printf("%c", "01X"[test[i]]);
        break;
    case ULLIMAQSU_REDUNDANT: printf("no test"); break;
    case ULLIMAQSU_GIVEN_UP: printf("given up"); break;
    }
    printf(", %llu nodes\n", nodes);
    return 1;
}

int main(int count, char **words) {
    static uint8_t circuit_bytes[CIRCUIT], fault_bytes[FAULTS], pattern_bytes[PATTERNS];
    if (count != 4) {
        printf("usage: front_end CIRCUIT FAULTS PATTERNS\n");
        return 2;
    }
    struct file_of circuit = load(words[1], circuit_bytes, sizeof circuit_bytes);
    struct file_of faults = load(words[2], fault_bytes, sizeof fault_bytes);
    struct file_of patterns = load(words[3], pattern_bytes, sizeof pattern_bytes);

    uint32_t refusal = ullimaqsu_check(circuit.at, circuit.len, answer, sizeof answer);
    if (refusal == ULLIMAQSU_CIRCUIT_LAYOUT) return layout_refused(circuit.at, number(0));
    if (refused("circuit", refusal)) return 1;
    size_t lines = number(0), inputs = number(1);
    printf("lines %u, inputs %u, outputs %u\n", (unsigned)lines, (unsigned)inputs, (unsigned)number(2));
    if (!print_dictionary(circuit, faults, patterns, lines, inputs)) return 1;
    for (size_t at = 0; at < faults.len; at += 8)
        if (!print_test(circuit, faults.at + at, lines, inputs)) return 1;
    return 0;
}
