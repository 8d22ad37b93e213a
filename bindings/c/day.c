/* The example day of document 01: built record by record, checked, one slip of it, then taken back. */
#include <inttypes.h>
#include <stdio.h>
#include <stdlib.h>

#include "journal.h"

#define COUNT(array) (sizeof(array) / sizeof *(array))

struct entry {
    uint8_t kind;
    uint16_t transaction;
    uint32_t item;
    int32_t after;
};

static const struct entry day[] = {
    {JOURNAL_KIND_READ, 1, 0, 0},
    {JOURNAL_KIND_WRITE, 1, 0, 320},
    {JOURNAL_KIND_READ, 1, 1, 0},
    {JOURNAL_KIND_WRITE, 1, 1, 1},
    {JOURNAL_KIND_COMMIT, 1, 0, 0},
    {JOURNAL_KIND_READ, 2, 1, 0},
    {JOURNAL_KIND_READ, 3, 2, 0},
    {JOURNAL_KIND_WRITE, 2, 1, 0},
    {JOURNAL_KIND_WRITE, 3, 2, 1180},
    {JOURNAL_KIND_COMMIT, 2, 0, 0},
    {JOURNAL_KIND_COMMIT, 3, 0, 0},
};

/* Ends the program unless the call was accepted. */
static void accept(uint32_t number, uint64_t place) {
    if (number == 0) return;
    fprintf(stderr, "refused, %s", journal_refusal_word(number));
    if (number != JOURNAL_REASON_LOANS) fprintf(stderr, ", place %" PRIu64, place);
    fprintf(stderr, "\n");
    exit(1);
}

static void print_table(const int32_t *table, size_t items) {
    size_t i;
    printf("table:");
    for (i = 0; i < items; i++) printf(" %" PRId32, table[i]);
    printf("\n");
}

int main(void) {
    uint8_t journal[JOURNAL_BYTES(COUNT(day))], out[JOURNAL_BYTES(COUNT(day))], status[JOURNAL_STATUS_BYTES];
    int32_t table[] = {500, 0, 1000};
    uint32_t counts[JOURNAL_COUNTS] = {0}, lsns[COUNT(day)], surviving, undone, aborted, number;
    const uint16_t unknown[] = {4}, bad[] = {1};
    uint64_t answer = 0;
    size_t i;

    number = journal_start(journal, sizeof journal, COUNT(table), &answer);
    accept(number, answer);
    for (i = 0; i < COUNT(day); i++) {
        number = journal_append(journal, sizeof journal, table, COUNT(table), counts, day[i].kind, day[i].transaction, day[i].item,
                                day[i].after, &answer);
        accept(number, answer);
    }
    printf("journal: %" PRIu32 " reads, %" PRIu32 " writes, %" PRIu32 " commits, %" PRIu32 " aborts\n", counts[JOURNAL_COUNT_READS],
           counts[JOURNAL_COUNT_WRITES], counts[JOURNAL_COUNT_COMMITS], counts[JOURNAL_COUNT_ABORTS]);
    printf("record 2:");
    for (i = 2 * JOURNAL_RECORD_BYTES; i < 3 * JOURNAL_RECORD_BYTES; i++) printf(" %02X", journal[i]);
    printf("\n");
    print_table(table, COUNT(table));
    number = journal_check(journal, sizeof journal, table, COUNT(table), &answer);
    accept(number, answer);
    printf("check: %" PRIu64 " active\n", answer);

    number = journal_chain(journal, sizeof journal, 2, lsns, COUNT(lsns), &answer);
    accept(number, answer);
    printf("chain of 2:");
    for (i = 0; i < answer; i++) printf(" %" PRIu32, lsns[i]);
    printf("\n");

    number = journal_undo(journal, sizeof journal, table, COUNT(table), unknown, COUNT(unknown), status, sizeof status, out, sizeof out,
                          &surviving, &undone, &aborted, &answer);
    if (number != 0) printf("undo of 4: refused, %s, %s %" PRIu64 "\n", journal_refusal_word(number), journal_place_word(number), answer);
    number = journal_undo(journal, sizeof journal, table, COUNT(table), bad, COUNT(bad), status, sizeof status, out, sizeof out,
                          &surviving, &undone, &aborted, &answer);
    accept(number, answer);
    printf("undo of 1: %" PRIu32 " surviving, %" PRIu32 " undone, %" PRIu32 " aborted, a copy of %" PRIu64 " bytes\n", surviving, undone,
           aborted, answer);
    for (i = 0; i < sizeof status; i++) {
        if (status[i] == JOURNAL_STATUS_SURVIVING) printf("transaction %lu: survives\n", (unsigned long)i);
        if (status[i] == JOURNAL_STATUS_UNDONE) printf("transaction %lu: undone\n", (unsigned long)i);
    }
    print_table(table, COUNT(table));
    number = journal_check(out, (size_t)answer, table, COUNT(table), &answer);
    accept(number, answer);
    printf("check of the copy: %" PRIu64 " active\n", answer);
    return 0;
}
