/*
 * The checked forms of journal.h. Each pair of loans of each call is laid out overlapping by one byte at either end, by one element,
 * at the same place, one inside the other, adjacent at either end, and with one of them empty. Where a written loan overlaps another the
 * call must return 101, call nothing and write nothing; otherwise it must do what the library does, and ask for its interface. Then null,
 * misaligned and endless loans, and undo in place. Link with --wrap for each function of the library, so that calls of it are counted.
 */
#include <stdio.h>
#include <stdlib.h>
#include <string.h>

#include "journal.h"

enum { START, APPEND, COUNT, CHECK, CHAIN, UNDO, CALLS };
enum { MOST = 9, SLOT = 4096, RECORDS = 4 };

struct loan {
    const char *name;
    size_t size, length;
    int written, fixed; /* fixed: the call takes no length for it */
};

static const struct call {
    const char *name;
    size_t count;
    struct loan loans[MOST];
} calls[CALLS] = {
    {"start", 2, {{"journal", 1, JOURNAL_BYTES(RECORDS), 1, 0}, {"answer", 8, 1, 1, 1}}},
    {"append", 4, {{"journal", 1, JOURNAL_BYTES(RECORDS), 1, 0}, {"table", 4, 1, 1, 0}, {"counts", 4, 4, 1, 1}, {"answer", 8, 1, 1, 1}}},
    {"count_records", 3, {{"journal", 1, JOURNAL_BYTES(RECORDS), 0, 0}, {"counts", 4, 4, 1, 1}, {"answer", 8, 1, 1, 1}}},
    {"check", 3, {{"journal", 1, JOURNAL_BYTES(RECORDS), 0, 0}, {"table", 4, 1, 0, 0}, {"answer", 8, 1, 1, 1}}},
    {"chain", 3, {{"journal", 1, JOURNAL_BYTES(RECORDS), 0, 0}, {"lsns", 4, 3, 1, 0}, {"answer", 8, 1, 1, 1}}},
    {"undo", 9, {{"journal", 1, JOURNAL_BYTES(RECORDS), 0, 0}, {"table", 4, 1, 1, 0}, {"bad", 2, 1, 0, 0},
                 {"status", 1, JOURNAL_STATUS_BYTES, 1, 0}, {"out", 1, JOURNAL_BYTES(RECORDS), 1, 0}, {"surviving", 4, 1, 1, 1},
                 {"undone", 4, 1, 1, 1}, {"aborted", 4, 1, 1, 1}, {"answer", 8, 1, 1, 1}}},
};

/* Where each loan of a call lies, and its length. */
struct lent {
    void *at[MOST];
    size_t length[MOST];
};

/* The library's functions and, in their place, ones that count. */
uint32_t __real_journal_start(uint8_t *, size_t, uint32_t, uint64_t *);
uint32_t __real_journal_append(uint8_t *, size_t, int32_t *, size_t, uint32_t *, uint8_t, uint16_t, uint32_t, int32_t, uint64_t *);
uint32_t __real_journal_count_records(const uint8_t *, size_t, uint32_t *, uint64_t *);
uint32_t __real_journal_check(const uint8_t *, size_t, const int32_t *, size_t, uint64_t *);
uint32_t __real_journal_chain(const uint8_t *, size_t, uint16_t, uint32_t *, size_t, uint64_t *);
uint32_t __real_journal_undo(const uint8_t *, size_t, int32_t *, size_t, const uint16_t *, size_t, uint8_t *, size_t, uint8_t *, size_t,
                             uint32_t *, uint32_t *, uint32_t *, uint64_t *);
uint32_t __real_journal_interface_1(void);
uint32_t __wrap_journal_start(uint8_t *, size_t, uint32_t, uint64_t *);
uint32_t __wrap_journal_append(uint8_t *, size_t, int32_t *, size_t, uint32_t *, uint8_t, uint16_t, uint32_t, int32_t, uint64_t *);
uint32_t __wrap_journal_count_records(const uint8_t *, size_t, uint32_t *, uint64_t *);
uint32_t __wrap_journal_check(const uint8_t *, size_t, const int32_t *, size_t, uint64_t *);
uint32_t __wrap_journal_chain(const uint8_t *, size_t, uint16_t, uint32_t *, size_t, uint64_t *);
uint32_t __wrap_journal_undo(const uint8_t *, size_t, int32_t *, size_t, const uint16_t *, size_t, uint8_t *, size_t, uint8_t *, size_t,
                             uint32_t *, uint32_t *, uint32_t *, uint64_t *);
uint32_t __wrap_journal_interface_1(void);

static unsigned long called, asked, refused, passed;

uint32_t __wrap_journal_interface_1(void) {
    asked++;
    return __real_journal_interface_1();
}

uint32_t __wrap_journal_start(uint8_t *j, size_t jn, uint32_t items, uint64_t *a) {
    called++;
    return __real_journal_start(j, jn, items, a);
}

uint32_t __wrap_journal_append(uint8_t *j, size_t jn, int32_t *t, size_t tn, uint32_t *c, uint8_t kind, uint16_t transaction, uint32_t item,
                               int32_t after, uint64_t *a) {
    called++;
    return __real_journal_append(j, jn, t, tn, c, kind, transaction, item, after, a);
}

uint32_t __wrap_journal_count_records(const uint8_t *j, size_t jn, uint32_t *c, uint64_t *a) {
    called++;
    return __real_journal_count_records(j, jn, c, a);
}

uint32_t __wrap_journal_check(const uint8_t *j, size_t jn, const int32_t *t, size_t tn, uint64_t *a) {
    called++;
    return __real_journal_check(j, jn, t, tn, a);
}

uint32_t __wrap_journal_chain(const uint8_t *j, size_t jn, uint16_t transaction, uint32_t *l, size_t ln, uint64_t *a) {
    called++;
    return __real_journal_chain(j, jn, transaction, l, ln, a);
}

uint32_t __wrap_journal_undo(const uint8_t *j, size_t jn, int32_t *t, size_t tn, const uint16_t *b, size_t bn, uint8_t *s, size_t sn,
                             uint8_t *o, size_t on, uint32_t *surviving, uint32_t *undone, uint32_t *aborted, uint64_t *a) {
    called++;
    return __real_journal_undo(j, jn, t, tn, b, bn, s, sn, o, on, surviving, undone, aborted, a);
}

/* A call with these loans: by the checked forms, and by the library. Append posts a commit of transaction 2. */
#define RUN(name, start, append, count_records, check, chain, undo)                                                                \
    static uint32_t name(int call, const struct lent *l) {                                                                         \
        void *const *p = l->at;                                                                                                    \
        const size_t *n = l->length;                                                                                               \
        switch (call) {                                                                                                            \
        case START: return start(p[0], n[0], 1, p[1]);                                                                             \
        case APPEND: return append(p[0], n[0], p[1], n[1], p[2], JOURNAL_KIND_COMMIT, 2, 0, 0, p[3]);                              \
        case COUNT: return count_records(p[0], n[0], p[1], p[2]);                                                                  \
        case CHECK: return check(p[0], n[0], p[1], n[1], p[2]);                                                                    \
        case CHAIN: return chain(p[0], n[0], 1, p[1], n[1], p[2]);                                                                 \
        default: return undo(p[0], n[0], p[1], n[1], p[2], n[2], p[3], n[3], p[4], n[4], p[5], p[6], p[7], p[8]);                   \
        }                                                                                                                          \
    }
RUN(checked, journal_start, journal_append, journal_count_records, journal_check, journal_chain, journal_undo)
RUN(unchecked, __real_journal_start, __real_journal_append, __real_journal_count_records, __real_journal_check, __real_journal_chain,
    __real_journal_undo)

/* The memory that everything is lent from, as it was before a call, and after the library's call on it. */
static unsigned char *arena, *before, *after;
static const size_t arena_bytes = (size_t)(MOST + 1) * SLOT;

static void fail(const char *what, int call, size_t i, size_t j) {
    const struct call *c = &calls[call];
    fprintf(stderr, "loans: %s, %s and %s: %s\n", c->name, c->loans[i].name, c->loans[j].name, what);
    exit(1);
}

static void *memory(void) {
    void *bytes = malloc(arena_bytes);
    if (bytes == NULL) exit(1);
    return bytes;
}

/* Fills every loan: a journal of one committed sale (500 to 320), its table, its list, its counts. */
static void fill(int call, const struct lent *l) {
    uint8_t journal[JOURNAL_BYTES(RECORDS)] = {0};
    int32_t table[1] = {500};
    uint32_t counts[JOURNAL_COUNTS] = {0};
    const uint16_t bad[1] = {1};
    uint64_t answer = 0;
    size_t i, k;
    if (journal_start(journal, sizeof journal, 1, &answer) != 0) exit(1);
    for (k = JOURNAL_KIND_READ; k <= JOURNAL_KIND_COMMIT; k++)
        if (journal_append(journal, sizeof journal, table, 1, counts, (uint8_t)k, 1, 0, k == JOURNAL_KIND_WRITE ? 320 : 0, &answer) != 0)
            exit(1);
    for (i = 0; i < arena_bytes; i++) arena[i] = (unsigned char)(i * 31 + 7);
    for (i = 0; i < calls[call].count; i++) {
        const char *name = calls[call].loans[i].name;
        const size_t bytes = l->length[i] * calls[call].loans[i].size;
        const void *from = strcmp(name, "journal") == 0  ? (const void *)journal
                           : strcmp(name, "table") == 0  ? (const void *)table
                           : strcmp(name, "counts") == 0 ? (const void *)counts
                           : strcmp(name, "bad") == 0    ? (const void *)bad
                                                         : NULL;
        if (from != NULL && bytes > 0) memcpy(l->at[i], from, bytes);
    }
}

/* The checked call with these loans, which are good or not. */
static void try(int call, const struct lent *l, int good, size_t i, size_t j) {
    uint32_t number, expected;
    memcpy(before, arena, arena_bytes);
    called = asked = 0;
    number = checked(call, l);
    if (!good) {
        if (number != JOURNAL_REASON_LOANS) fail("not refused", call, i, j);
        if (called != 0 || asked != 0) fail("refused, and the library was called", call, i, j);
        if (memcmp(arena, before, arena_bytes) != 0) fail("refused, and something was written", call, i, j);
        refused++;
        return;
    }
    if (called != 1) fail("the library was not called", call, i, j);
    if (asked != 1) fail("the interface was not asked for", call, i, j);
    memcpy(after, arena, arena_bytes);
    memcpy(arena, before, arena_bytes);
    expected = unchecked(call, l);
    if (number != expected) fail("another number than the library's", call, i, j);
    if (memcmp(arena, after, arena_bytes) != 0) fail("something else was written than by the library", call, i, j);
    passed++;
}

/* All loans apart, each in the middle of a slot of its own. */
static struct lent homes(int call) {
    struct lent l;
    size_t i;
    memset(&l, 0, sizeof l);
    for (i = 0; i < calls[call].count; i++) {
        l.at[i] = arena + i * SLOT + SLOT / 2;
        l.length[i] = calls[call].loans[i].length;
    }
    return l;
}

/* Loan j so many bytes from the start of loan i, whose home is aligned for every element. */
static void pair(int call, size_t i, size_t j, long offset, int good) {
    struct lent l = homes(call);
    l.at[j] = (unsigned char *)l.at[i] + offset;
    fill(call, &l);
    try(call, &l, good, i, j);
}

static long down(long offset, long size) { return offset - ((offset % size) + size) % size; }

static void pairs(int call) {
    const struct loan *loans = calls[call].loans;
    size_t i, j;
    for (i = 0; i < calls[call].count; i++)
        for (j = 0; j < calls[call].count; j++) {
            const long size = (long)loans[j].size, here = (long)(loans[i].size * loans[i].length), there = (long)(size * (long)loans[j].length);
            const int shared = !loans[i].written && !loans[j].written;
            struct lent l;
            if (i == j) continue;
            /* By one byte at either end; only a loan of bytes is aligned there. */
            pair(call, i, j, 1 - there, shared && size == 1);
            pair(call, i, j, here - 1, shared && size == 1);
            /* By one element at either end, at the same place, and inside. */
            pair(call, i, j, size - there, shared);
            pair(call, i, j, down(here - 1, size), shared);
            pair(call, i, j, 0, shared);
            pair(call, i, j, down(here / 2, size), shared);
            /* Adjacent. */
            pair(call, i, j, -there, 1);
            pair(call, i, j, -down(-here, size), 1);
            /* Empty, at the start of the other, inside it, and at its end. */
            if (loans[j].fixed) continue;
            l = homes(call);
            l.length[j] = 0;
            l.at[j] = l.at[i];
            fill(call, &l);
            try(call, &l, 1, i, j);
            l.at[j] = (unsigned char *)l.at[i] + down(here / 2, size);
            fill(call, &l);
            try(call, &l, 1, i, j);
            l.at[j] = (unsigned char *)l.at[i] - down(-here, size);
            fill(call, &l);
            try(call, &l, 1, i, j);
        }
}

/* Each loan by itself: null, with its length and empty; not aligned, with its length and empty; longer than memory. */
static void singles(int call) {
    const struct loan *loans = calls[call].loans;
    struct lent l = homes(call);
    size_t i;
    fill(call, &l);
    try(call, &l, 1, 0, 0);
    for (i = 0; i < calls[call].count; i++) {
        struct lent h = homes(call);
        fill(call, &h);
        l = h;
        l.at[i] = NULL;
        try(call, &l, 0, i, i);
        if (loans[i].size > 1) {
            l.at[i] = (unsigned char *)h.at[i] + 1;
            try(call, &l, 0, i, i);
            l.at[i] = (unsigned char *)h.at[i] + loans[i].size / 2;
            try(call, &l, 0, i, i);
        }
        if (loans[i].fixed) continue;
        l.length[i] = 0;
        if (loans[i].size > 1) try(call, &l, 0, i, i);
        l.at[i] = NULL;
        try(call, &l, 1, i, i);
        l.at[i] = h.at[i];
        l.length[i] = SIZE_MAX;
        try(call, &l, 0, i, i);
        l.length[i] = SIZE_MAX / loans[i].size;
        try(call, &l, 0, i, i);
        /* Ends at the last address, and so overlaps what is behind it. */
        l.length[i] = (UINTPTR_MAX - (uintptr_t)l.at[i]) / loans[i].size;
        try(call, &l, 0, i, i);
    }
}

/* Undo in place: the journal as its own paper. */
static void in_place(void) {
    struct lent l = homes(UNDO);
    int32_t amount;
    l.at[4] = l.at[0];
    fill(UNDO, &l);
    try(UNDO, &l, 0, 0, 4);
    memcpy(&amount, l.at[1], sizeof amount);
    if (amount != 320) fail("the table was written", UNDO, 0, 4);
}

int main(void) {
    int call;
    arena = memory();
    before = memory();
    after = memory();
    for (call = START; call < CALLS; call++) {
        singles(call);
        pairs(call);
    }
    in_place();
    if (JOURNAL_REASON_LOANS != 101 || strcmp(journal_refusal_word(101), "loans") != 0) fail("not 101, \"loans\"", START, 0, 0);
    free(arena);
    free(before);
    free(after);
    printf("loans: %lu refused with 101, %lu passed on to the library\n", refused, passed);
    return 0;
}
