/*
 * Measures the stack that each call takes: the call runs on a stack of its own that is filled with a pattern, and what it changed
 * is counted from the top. Prints the most of each call over full, small and refused days, and fails above journal.h's figures.
 */
#define _XOPEN_SOURCE 700
#include <stdio.h>
#include <stdlib.h>
#include <string.h>
#include <ucontext.h>

#include "journal.h"

enum { STACK = 1 << 18, LIST = JOURNAL_MAX_TRANSACTION };

/* What is lent. */
static uint8_t journal[JOURNAL_MAX_BYTES], out[JOURNAL_MAX_BYTES], status[JOURNAL_STATUS_BYTES];
static int32_t table[JOURNAL_MAX_ITEMS];
static uint32_t counts[JOURNAL_COUNTS], lsns[JOURNAL_MAX_RECORDS], surviving, undone, aborted;
static uint16_t bad[LIST];
static uint64_t answer;
static size_t room, items, listed, slots;
static uint8_t kind;
static uint16_t transaction;
static uint32_t item, result;
static int32_t after;

static void call_start(void) { result = journal_start(journal, room, (uint32_t)items, &answer); }

static void call_append(void) {
    result = journal_append(journal, room, table, items, counts, kind, transaction, item, after, &answer);
}

static void call_count(void) { result = journal_count_records(journal, room, counts, &answer); }

static void call_check(void) { result = journal_check(journal, room, table, items, &answer); }

static void call_chain(void) { result = journal_chain(journal, room, transaction, lsns, slots, &answer); }

static void call_undo(void) {
    result = journal_undo(journal, room, table, items, bad, listed, status, sizeof status, out, sizeof out, &surviving, &undone, &aborted,
                          &answer);
}

struct call {
    const char *name;
    void (*function)(void);
    size_t limit, most;
};

static struct call calls[] = {
    {"start", call_start, JOURNAL_STACK_START, 0}, {"append", call_append, JOURNAL_STACK_APPEND, 0},
    {"count_records", call_count, JOURNAL_STACK_COUNT_RECORDS, 0}, {"check", call_check, JOURNAL_STACK_CHECK, 0},
    {"chain", call_chain, JOURNAL_STACK_CHAIN, 0}, {"undo", call_undo, JOURNAL_STACK_UNDO, 0},
};
enum { START, APPEND, COUNT, CHECK, CHAIN, UNDO, CALLS };

static void fail(const char *what) {
    fprintf(stderr, "stack: %s\n", what);
    exit(1);
}

/* Runs a call on a stack filled with this byte; the bytes from the top down to the lowest that changed. */
static size_t used(void (*function)(void), int pattern) {
    static unsigned char stack[STACK];
    static ucontext_t here, there;
    size_t lowest = 0;
    memset(stack, pattern, sizeof stack);
    if (getcontext(&there) != 0) fail("getcontext");
    there.uc_stack.ss_sp = stack;
    there.uc_stack.ss_size = sizeof stack;
    there.uc_link = &here;
    makecontext(&there, function, 0);
    if (swapcontext(&here, &there) != 0) fail("swapcontext");
    while (lowest < sizeof stack && stack[lowest] == (unsigned char)pattern) lowest++;
    return sizeof stack - lowest;
}

/* One call, which must give this number. */
static void run(int index, uint32_t number) {
    struct call *call = &calls[index];
    size_t bytes = used(call->function, 0xA5);
    if (result != number) {
        fprintf(stderr, "stack: %s gave %u, place %llu\n", call->name, (unsigned)result, (unsigned long long)answer);
        exit(1);
    }
    if (bytes > call->most) call->most = bytes;
}

static void start(size_t bytes, size_t of_items) {
    room = bytes;
    items = of_items;
    memset(journal, 0, sizeof journal);
    memset(table, 0, sizeof table);
    memset(counts, 0, sizeof counts);
    run(START, 0);
}

static void append(uint8_t the_kind, uint32_t of_transaction, uint32_t the_item, int32_t amount) {
    kind = the_kind;
    transaction = (uint16_t)of_transaction;
    item = the_item;
    after = amount;
    run(APPEND, 0);
}

/* A finished journal that is full: a refused append, check, chain; all calls with the last record damaged, which count does not see;
   then undo. */
static void full_day(void) {
    size_t last = JOURNAL_MAX_BYTES - JOURNAL_RECORD_BYTES;
    if (counts[0] + counts[1] + counts[2] + counts[3] != JOURNAL_MAX_RECORDS) fail("the day is not full");
    transaction = 1;
    kind = JOURNAL_KIND_READ;
    run(APPEND, JOURNAL_REASON_CLOSED);
    run(COUNT, 0);
    run(CHECK, 0);
    slots = JOURNAL_MAX_RECORDS;
    run(CHAIN, 0);
    slots = 0;
    run(CHAIN, JOURNAL_REASON_CAPACITY);
    journal[last + 1] = 1;
    run(APPEND, JOURNAL_REASON_MALFORMED);
    run(COUNT, 0);
    run(CHECK, JOURNAL_REASON_MALFORMED);
    run(CHAIN, JOURNAL_REASON_MALFORMED);
    run(UNDO, JOURNAL_REASON_MALFORMED);
    journal[last + 1] = 0;
    run(UNDO, 0);
}

int main(void) {
    uint32_t t, i;
    int failed = 0;

    /* 1,024 transactions, each with a read that the one before it feeds, a write and a commit; the last one fills the journal. */
    start(sizeof journal, JOURNAL_MAX_ITEMS);
    for (t = 1; t <= JOURNAL_MAX_TRANSACTION; t++) {
        append(JOURNAL_KIND_READ, t, 0, 0);
        append(JOURNAL_KIND_WRITE, t, 0, (int32_t)t);
        if (t == JOURNAL_MAX_TRANSACTION)
            for (i = 3 * t; i < JOURNAL_MAX_RECORDS; i++) append(JOURNAL_KIND_READ, t, i % JOURNAL_MAX_ITEMS, 0);
        append(JOURNAL_KIND_COMMIT, t, 0, 0);
    }
    for (listed = 0; listed < LIST; listed++) bad[listed] = (uint16_t)(LIST - listed);
    full_day();

    /* One transaction of 3,200 records, committed and then aborted. */
    for (t = JOURNAL_KIND_COMMIT; t <= JOURNAL_KIND_ABORT; t++) {
        start(sizeof journal, JOURNAL_MAX_ITEMS);
        for (i = 0; i < JOURNAL_MAX_RECORDS / 2; i++) {
            append(JOURNAL_KIND_READ, 1, i % JOURNAL_MAX_ITEMS, 0);
            if (i + 1 < JOURNAL_MAX_RECORDS / 2) append(JOURNAL_KIND_WRITE, 1, i % JOURNAL_MAX_ITEMS, (int32_t)i);
        }
        append((uint8_t)t, 1, 0, 0);
        listed = t == JOURNAL_KIND_COMMIT;
        bad[0] = 1;
        full_day();
    }

    /* A head only, an unknown name, and nothing at all. */
    start(JOURNAL_RECORD_BYTES, 1);
    kind = JOURNAL_KIND_COMMIT;
    item = 0;
    after = 0;
    listed = 1;
    run(APPEND, JOURNAL_REASON_CAPACITY);
    run(COUNT, 0);
    run(CHECK, 0);
    run(CHAIN, JOURNAL_REASON_UNKNOWN);
    run(UNDO, JOURNAL_REASON_UNKNOWN);
    room = 0;
    for (i = START; i < CALLS; i++) run((int)i, JOURNAL_REASON_TRUNCATED);

    for (i = START; i < CALLS; i++) {
        printf("%-13s %5lu bytes of stack, at most %lu\n", calls[i].name, (unsigned long)calls[i].most, (unsigned long)calls[i].limit);
        if (calls[i].most > calls[i].limit) failed = 1;
    }
    return failed;
}
