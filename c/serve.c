/* The bridge: answers calls of the entries over stdin and stdout, for tests on a machine that cannot link the archive itself.

   A batch is its size in bytes and then the calls, one after the other. A call is a number that comes back as what the entry returned, the
   name of the entry, how many parameters it has, and these. A number has eight bytes, the lowest first; a name is its length and its bytes.
   A parameter is the name of its type and a number; of a slice this is the length, and a guard, the elements and a guard follow. The batch
   goes back as the calls leave it. A batch that is not so ends the bridge, and so does an entry that returns what the header does not name.

   A batch is bytes at any place, and a slice has memory of its own, to which and from which it is copied: so an entry sees each element as
   what it is. */
#include "ullimaqsu.h"

typedef long ssize;
ssize read(int, void *, size_t);
ssize write(int, const void *, size_t);
void exit(int);
void *malloc(size_t);
void free(void *);
void *memcpy(void *, const void *, size_t);
int memcmp(const void *, const void *, size_t);

#define GUARD 16 /* bytes: as many as elements of any type fill */
#define MOST 16  /* parameters of an entry */

/* The types of elements, as Rust and as C call them. */
#define TYPES(each) each(u8, uint8_t) each(i32, int32_t) each(u32, uint32_t) each(u64, uint64_t) each(f64, double)

/* What is asked of a batch. */
static void need(int holds) {
    if (!holds) exit(1);
}

/* ---- reading a batch */

/* What is still to be read. */
static uint8_t *next;
static size_t rest;

static uint8_t *take(size_t len) {
    uint8_t *at = next;
    need(len <= rest);
    next += len, rest -= len;
    return at;
}

static uint64_t number(void) {
    uint64_t n;
    memcpy(&n, take(sizeof n), sizeof n);
    return n;
}

struct name {
    const uint8_t *at;
    size_t len;
};

static struct name name(void) {
    struct name n;
    n.len = number();
    n.at = take(n.len);
    return n;
}

static int is_word(struct name n, const char *word, size_t len) { return n.len == len && memcmp(n.at, word, len) == 0; }
#define IS(name, word) is_word(name, word, sizeof word - 1)

/* ---- parameters */

struct parameter {
    struct name type;
    uint64_t number; /* or the length of a slice, which has the rest too */
    uint8_t *sent;   /* guard, elements, guard */
    void *memory;    /* the same for the entry */
    size_t size;     /* of both, in bytes */
};

static struct parameter parameters[MOST];
static size_t count;

static size_t size_of(struct name of) {
#define SIZE_OF(name, type) \
    if (IS(of, #name)) return sizeof(type);
    TYPES(SIZE_OF)
    need(0);
    return 0;
}

static void lend(struct parameter *slice) {
    size_t element = size_of(slice->type);
    need(slice->number <= rest / element);
    slice->size = GUARD + slice->number * element + GUARD;
    slice->sent = take(slice->size);
    slice->memory = malloc(slice->size);
    need(slice->memory != 0);
    memcpy(slice->memory, slice->sent, slice->size);
}

static void take_parameters(void) {
    count = number();
    need(count <= MOST);
    for (struct parameter *p = parameters; p < parameters + count; p++) {
        p->type = name();
        p->number = number();
        p->memory = 0;
        if (!IS(p->type, "number")) lend(p);
    }
}

static void give_back(void) {
    for (struct parameter *p = parameters; p < parameters + count; p++)
        if (p->memory) memcpy(p->sent, p->memory, p->size), free(p->memory);
}

/* The k-th parameter, which is of this type. */
static const struct parameter *typed(size_t k, const char *type, size_t len) {
    need(k < count && is_word(parameters[k].type, type, len));
    return parameters + k;
}
#define TYPED(k, type) typed(k, type, sizeof type - 1)

/* A slice of no elements has no memory at all. */
#define ELEMENTS(name, type) \
    static type *name##_at(size_t k) { \
        const struct parameter *slice = TYPED(k, #name); \
        return slice->number ? (type *)slice->memory + GUARD / sizeof(type) : 0; \
    }
TYPES(ELEMENTS)

/* The k-th parameter as an entry takes it. */
#define NUMBER(k) TYPED(k, "number")->number
#define U8(k) u8_at(k), parameters[k].number
#define I32(k) i32_at(k), parameters[k].number
#define U32(k) u32_at(k), parameters[k].number
#define U64(k) u64_at(k), parameters[k].number
#define F64(k) f64_at(k), parameters[k].number

/* ---- entries */

/* For the test of the bridge alone: divides each element, which has another result for each type, and as many on either side of a slice as
   `beyond` says of it. */
#define DIVIDE(name, type) \
    static void divide_##name(type *at, size_t len, size_t beyond, uint64_t by) { \
        for (ssize k = -(ssize)beyond; k < (ssize)(len + beyond); k++) at[k] /= (type)by; \
    }
TYPES(DIVIDE)

static uint32_t bridge_divide(uint64_t by, const uint8_t *beyond, size_t beyond_len, uint8_t *u8, size_t u8_len, int32_t *i32, size_t i32_len,
                              uint32_t *u32, size_t u32_len, uint64_t *u64, size_t u64_len, double *f64, size_t f64_len) {
    if (beyond_len != 5) return ULLIMAQSU_BUFFER_SIZE;
    divide_u8(u8, u8_len, beyond[0], by);
    divide_i32(i32, i32_len, beyond[1], by);
    divide_u32(u32, u32_len, beyond[2], by);
    divide_u64(u64, u64_len, beyond[3], by);
    divide_f64(f64, f64_len, beyond[4], by);
    return ULLIMAQSU_FINE;
}

/* The entries, a row each. */
static uint32_t enter(struct name entry) {
#define ENTRY(name, ...) \
    if (IS(entry, #name)) return name(__VA_ARGS__);
    ENTRY(ullimaqsu_check, U8(0), U8(1))
    ENTRY(ullimaqsu_dictionary, U8(0), U8(1), U8(2), U8(3), U8(4), U8(5))
    ENTRY(ullimaqsu_dictionary_lanes, U8(0), U8(1), U8(2), U8(3), U64(4), U8(5))
    ENTRY(ullimaqsu_unfold, U8(0), U8(1), NUMBER(2), U8(3), U8(4))
    ENTRY(ullimaqsu_unfold_dictionary, U8(0), U8(1), NUMBER(2), U8(3), U8(4), U8(5), U8(6), U8(7))
    ENTRY(ullimaqsu_compact, NUMBER(0), NUMBER(1), U8(2), U8(3), U8(4))
    ENTRY(ullimaqsu_audit, NUMBER(0), NUMBER(1), U8(2), U8(3), U8(4))
    ENTRY(ullimaqsu_suspects_open, NUMBER(0), NUMBER(1), U8(2), U8(3), U8(4))
    ENTRY(ullimaqsu_suspects_report, NUMBER(0), NUMBER(1), U8(2), NUMBER(3), NUMBER(4), U8(5), U8(6))
    ENTRY(ullimaqsu_suspects_marks, U8(0), U8(1), U8(2))
    ENTRY(ullimaqsu_search, U8(0), U8(1), NUMBER(2), U8(3), U8(4), U8(5))
    ENTRY(ullimaqsu_search_heads, U8(0), U8(1), NUMBER(2), U8(3), U8(4), U8(5))
    ENTRY(ullimaqsu_search_all, U8(0), U8(1), U64(2), U8(3), U64(4), U8(5), U8(6), U8(7))
    ENTRY(ullimaqsu_clauses, U8(0), U8(1), I32(2), U8(3))
    ENTRY(ullimaqsu_control, U8(0), F64(1), F64(2), U8(3))
    ENTRY(ullimaqsu_bench, U8(0), U8(1), U8(2))
    ENTRY(ullimaqsu_bench_names, U8(0), U32(1), U8(2))
    ENTRY(bridge_divide, NUMBER(0), U8(1), U8(2), I32(3), U32(4), U64(5), F64(6))
    need(0);
    return 0;
}

static int is_named(uint64_t returned) {
    switch (returned) {
#define NAMED(name, number, says, counts) case name:
        ULLIMAQSU_REFUSALS(NAMED)
#undef NAMED
    case ULLIMAQSU_FINE: return 1;
    default: return 0;
    }
}

static void call(void) {
    uint8_t *place = take(sizeof(uint64_t));
    struct name entry = name();
    take_parameters();
    uint64_t returned = enter(entry);
    need(is_named(returned));
    give_back();
    memcpy(place, &returned, sizeof returned);
}

/* ---- batches */

static int all(ssize (*move)(int, void *, size_t), int file, void *at, size_t len) {
    for (ssize moved; len; at = (uint8_t *)at + moved, len -= (size_t)moved)
        if ((moved = move(file, at, len)) <= 0) return 0;
    return 1;
}

static ssize put(int file, void *at, size_t len) { return write(file, at, len); }

int main(void) {
    for (uint64_t size; all(read, 0, &size, sizeof size);) {
        uint8_t *batch = malloc(size);
        need(batch && all(read, 0, batch, size));
        for (next = batch, rest = size; rest;) call();
        need(all(put, 1, batch, size));
        free(batch);
    }
    return 0;
}
