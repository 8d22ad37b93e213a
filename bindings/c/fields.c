/*
 * Prints what journal.h reads from the bytes on standard input: the head's two counts, then the seven fields of every 20 bytes, a line
 * each. tests/compare holds it against the plain implementation. It calls nothing of the library.
 */
#include <inttypes.h>
#include <stdio.h>
#include <stdlib.h>
#include <string.h>

#include "journal.h"

int main(void) {
    static uint8_t input[2 * JOURNAL_MAX_BYTES];
    const size_t length = fread(input, 1, sizeof input, stdin);
    /* Memory of just that length, so that a sanitizer sees a load behind it. */
    uint8_t *const journal = malloc(length);
    struct journal_head head;
    struct journal_record record;
    uint32_t lsn;
    if (journal == NULL && length > 0) return 1;
    if (length > 0) memcpy(journal, input, length);
    if (journal_head_of(journal, length, &head)) printf("%" PRIu32 " %" PRIu32 "\n", head.records, head.items);
    for (lsn = 0; journal_record_at(journal, length, lsn, &record); lsn++)
        printf("%d %d %d %" PRIu32 " %" PRIu32 " %" PRId32 " %" PRId32 "\n", record.kind, record.byte_1, record.transaction, record.next,
               record.item, record.before, record.after);
    free(journal);
    return 0;
}
