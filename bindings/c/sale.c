/* A sale of 180 pence, posted and then taken back; another, of 150 pence, posted on to what is left. */
#include <stdio.h>
#include "journal.h"

enum { ITEMS = 1, ROOM = JOURNAL_BYTES(3) };

static int32_t table[ITEMS] = {500};
static uint32_t counts[JOURNAL_COUNTS];
static uint64_t answer;

/* A sale that takes these pence from item 0: a read, a write and a commit. */
static uint32_t sell(uint8_t journal[ROOM], uint16_t sale, int32_t pence) {
    uint32_t refused = journal_append(journal, ROOM, table, ITEMS, counts, JOURNAL_KIND_READ, sale, 0, 0, &answer);
    if (!refused) refused = journal_append(journal, ROOM, table, ITEMS, counts, JOURNAL_KIND_WRITE, sale, 0, table[0] - pence, &answer);
    if (!refused) refused = journal_append(journal, ROOM, table, ITEMS, counts, JOURNAL_KIND_COMMIT, sale, 0, 0, &answer);
    return refused;
}

int main(void) {
    uint8_t journal[ROOM], out[ROOM], status[JOURNAL_STATUS_BYTES];
    const uint16_t bad[1] = {1};
    uint32_t surviving, undone, aborted;

    uint32_t refused = journal_start(journal, ROOM, ITEMS, &answer);
    if (!refused) refused = sell(journal, 1, 180);
    if (!refused)
        refused = journal_undo(journal, ROOM, table, ITEMS, bad, 1, status, sizeof status, out, ROOM, &surviving, &undone, &aborted,
                               &answer);
    if (!refused) printf("%lu taken back, item 0 is %ld\n", (unsigned long)undone, (long)table[0]);

    /* The copy is at the front of out, with room behind it; the table goes with it, and so do the copy's counts. */
    if (!refused) refused = journal_count_records(out, ROOM, counts, &answer);
    if (!refused) refused = sell(out, 2, 150);
    if (!refused) printf("posted on, item 0 is %ld\n", (long)table[0]);
    if (refused == JOURNAL_REASON_LOANS) printf("refused: loans\n"); /* answer is not written */
    else if (refused) printf("refused: %s, place %lu\n", journal_refusal_word(refused), (unsigned long)answer);
    return (int)refused;
}
