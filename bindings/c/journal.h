/*
 * The depot journal (document 01): start, post, check, slip and take-back, and the count of a stored journal, as a proved static
 * library.
 *
 * Link crates/capi/out/libcapi.a, which `rt lib` writes in crates/capi: x86-64 Linux, position independent, one object. It needs
 * memcpy and memset of the C library and nothing else: no flag, no run-time library, no initialisation.
 *
 *     cc -std=c99 -I bindings/c program.c crates/capi/out/libcapi.a
 *
 * Words. A transaction is document 01's "sale", an LSN its "record number", abort its "rollback", active its "open"; append is
 * "post", chain is "slip", undo is "take-back"; surviving is "kept", undone "taken back", aborted "dropped"; status is "marks",
 * out is "paper", counts is "tally".
 *
 * Layout. A journal is a run of 20-byte records, little-endian. Record 0 is the head, further records count from 1.
 *
 *     bytes   head                       record
 *     0       0                          kind, see enum journal_kind
 *     1       0                          0
 *     2-3     0                          transaction, 1 to 1,024
 *     4-7     record count, 0 to 3,200   next: the lowest later record with the same bytes 2-3, 0 if there is none
 *     8-11    item count, 1 to 1,024     item, 0 to item count less 1; 0 for a commit or an abort
 *     12-15   0                          before, signed; 0 but for a write
 *     16-19   0                          after, signed; 0 but for a write
 *
 * Bytes behind the last record are not read. The table has one amount per item, in signed 32-bit whole pence.
 *
 * Terms. An end is a commit or an abort. A transaction is active from its first record to its end. At an abort each item that the
 * transaction wrote returns to the before of its first write of it. The standing amount of an item follows all records so far, aborts
 * included. Its opening amount is the before of its first write, or the table's amount if it has none. A read by T of an item is fed by
 * the highest earlier write of that item that changed the amount (its after is not its before) and whose transaction is T or has
 * already committed, else by the opening amount; T reads from that write's transaction.
 *
 * Every call. The result is the refusal's number, one of enum journal_reason, or 0 if the call is accepted. `answer` is written in
 * both cases: with the refusal's place, or with what the call answers. A refused call writes to nothing else that it was lent. Any
 * length and any content of a loan is worked through or refused; no call reads or writes outside its loans. Only 101 is otherwise,
 * see "Checked calls". The compiler warns where a result is not used.
 *
 * Loans. A loan is a pointer and the number of its elements behind it (not of bytes), lent for the time of the call. Every pointer
 * must be valid for that many elements and aligned for its element: 1 byte for journal, status and out, 2 for bad, 4 for table, lsns,
 * counts, surviving, undone and aborted, 8 for answer. What is read must be initialised; status, out, lsns, surviving,
 * undone, aborted, answer, start's journal, count's counts and the bytes behind a journal's last record need not be. A loan that the
 * call writes must not overlap any other of its loans; `answer`, counts, surviving, undone and aborted are written.
 *
 * In place. So there is no undo in place: out must not be the journal. The library alone would accept out == journal, write the copy
 * over the records from which the table is still to be worked out, and leave wrong amounts that journal_check passes. Lend an out of its
 * own, and copy it over the journal after the call where the journal is to be replaced.
 *
 * Checked calls. Under the usual names stand checked forms of the calls. They return JOURNAL_REASON_LOANS (101, "loans") where a written
 * loan overlaps another, a pointer is not aligned, is null with a length above 0, or has a length that runs past the last address. Then
 * nothing is written, `answer` keeps its old value, and the library is not called. An empty loan overlaps nothing. That a pointer is
 * valid for its length cannot be checked. Where JOURNAL_UNCHECKED is defined before this file is read, the usual names are the library's
 * functions, which check none of this.
 *
 * Version. JOURNAL_INTERFACE is the number of this interface; it rises when a signature changes. The archive has a function of that
 * number, journal_interface_1, which every checked form calls: a program compiled with this file does not link with an archive of another
 * number.
 *
 * Null. A null pointer with length 0 is an empty loan, for every loan with a length: nothing is read or written through it. What
 * the calls give: 1 for journal, 3 for table, 13 for status, 14 for out and lsns (each unless a refusal before it applies); for bad
 * it is the empty list, which is accepted. This is tried for each loan of each call at every test (bindings/rust/tests/loans.rs).
 * `counts`, `surviving`, `undone`, `aborted` and `answer` must not be null (101).
 *
 * State. None is kept between calls: the archive has no writable data. So calls are reentrant and may run in several threads at
 * once. While a call runs, no other thread may touch what it writes, nor write what it reads.
 *
 * Memory. No call allocates; working arrays are on the stack. Measured use is below, JOURNAL_STACK_*.
 *
 * Time. Every call but start goes over all records, journal_append too (docs/PERFORMANCE.md has figures).
 *
 * Crash. If the process or the machine stops during a call, what is lent to be written may be written in part. The caller guards
 * against that: call on copies in memory, then store journal and table together under another name, flush them to the disk, and put them
 * in place by one rename, of one file or of one folder. Two renames are not enough: after an undo, the copy with the old table can pass
 * journal_check with wrong amounts, since 10 looks at written items only. bindings/c/keep.c does so.
 */
#ifndef JOURNAL_H
#define JOURNAL_H

#include <stddef.h>
#include <stdint.h>

#ifdef __cplusplus
extern "C" {
#endif

/* A function whose result must be used, where the compiler can warn. */
#if defined(__GNUC__)
#define JOURNAL_MUST_USE __attribute__((warn_unused_result))
#elif (defined(__cplusplus) && __cplusplus >= 201703L) || (defined(__STDC_VERSION__) && __STDC_VERSION__ >= 202311L)
#define JOURNAL_MUST_USE [[nodiscard]]
#else
#define JOURNAL_MUST_USE
#endif

/* The number of this interface, see "Version". */
#define JOURNAL_INTERFACE 1

/* Limits. */
#define JOURNAL_RECORD_BYTES 20      /* the head and each record */
#define JOURNAL_MAX_RECORDS 3200     /* records of a journal, the head not counted; they are numbered from 1 */
#define JOURNAL_MAX_BYTES 64020      /* a journal of that many records: 20 x (3,200 + 1) */
#define JOURNAL_MAX_ITEMS 1024       /* items of a journal, at least 1; they are numbered from 0 */
#define JOURNAL_MAX_TRANSACTION 1024 /* the highest number of a transaction; the lowest is 1 */
#define JOURNAL_STATUS_BYTES 1025    /* the status vector: one byte per transaction number, from 0 */

/* Bytes of a journal of this many records. */
#define JOURNAL_BYTES(records) (JOURNAL_RECORD_BYTES * ((size_t)(records) + 1))

/* Kinds of record: the first byte of each. */
enum journal_kind {
    JOURNAL_KIND_READ = 1,
    JOURNAL_KIND_WRITE = 2,
    JOURNAL_KIND_COMMIT = 3,
    JOURNAL_KIND_ABORT = 4 /* "rollback" */
};

/* The counts that journal_append and journal_count_records are lent: where each kind of record is counted. */
enum journal_count {
    JOURNAL_COUNT_READS = 0,
    JOURNAL_COUNT_WRITES = 1,
    JOURNAL_COUNT_COMMITS = 2,
    JOURNAL_COUNT_ABORTS = 3,
    JOURNAL_COUNTS = 4
};

/* Bytes of the status vector, as journal_undo writes it. */
enum journal_status {
    JOURNAL_STATUS_NOT_COMMITTED = 0, /* no committed transaction of that number */
    JOURNAL_STATUS_SURVIVING = 1,     /* "kept" */
    JOURNAL_STATUS_UNDONE = 2         /* "taken back" */
};

/* Why a call is refused: document 01's number and word, and the place that `answer` gets. */
enum journal_reason {
    JOURNAL_REASON_TRUNCATED = 1,      /* torn: fewer than 20 bytes, or fewer than 20 x (record count + 1); place 0 */
    JOURNAL_REASON_HEADER = 2,         /* head: a field of the head, or start's item count, breaks the layout; place 0 */
    JOURNAL_REASON_TABLE_LENGTH = 3,   /* table: its length is not the item count; place 0 */
    JOURNAL_REASON_MALFORMED = 4,      /* smudge: a field other than next breaks the layout; place: the record */
    JOURNAL_REASON_CHAIN = 5,          /* chain: next is wrong; place: the record */
    JOURNAL_REASON_CLOSED = 6,         /* closed: the transaction already has an end; place: the record */
    JOURNAL_REASON_CONFLICT = 7,       /* crossed: a read or write of an item that another active transaction has written, or a
                                          write of one that another active transaction has read; place: the record */
    JOURNAL_REASON_BLIND = 8,          /* blind: a write with no earlier read of the item by its transaction; place: the record */
    JOURNAL_REASON_BEFORE_IMAGE = 9,   /* before: a write of an item with an earlier write, whose before is not the standing
                                          amount; place: the record */
    JOURNAL_REASON_FINAL_STATE = 10,   /* close: a written item's standing amount at the end is not the table's; place: the lowest
                                          such item */
    JOURNAL_REASON_ACTIVE = 11,        /* open: an active transaction; place: the lowest such transaction */
    JOURNAL_REASON_UNKNOWN = 12,       /* unknown: a listed number is not a committed transaction; place: its lowest position in
                                          the list, from 0. In chain: a transaction without records; place 0 */
    JOURNAL_REASON_STATUS_LENGTH = 13, /* marks: length is not 1,025; place 0 */
    JOURNAL_REASON_CAPACITY = 14,      /* paper: out or lsns is shorter than needed; in append 3,200 records already, or under 20
                                          bytes left behind the last record; place 0 */
    JOURNAL_REASON_COUNTS = 15,        /* tally: the counts differ from the journal; place 0 */
    JOURNAL_REASON_LOANS = 101         /* loans: of the checked forms alone, see "Loans" above; no place, `answer` is not written */
};

/*
 * Bytes of stack that each call takes: measured, and rounded up to a multiple of 4,096 (start and count: 1,024). The checked form and
 * memcpy and memset of the C library are included, signal handlers are not. bindings/c/stack.c measures on a painted stack, over days of
 * 3,200 records with 1,024 transactions and with one, damaged days and refused calls; it is run at every test and fails above these
 * figures.
 */
#define JOURNAL_STACK_START 1024
#define JOURNAL_STACK_APPEND 36864
#define JOURNAL_STACK_CHECK 36864
#define JOURNAL_STACK_CHAIN 36864
#define JOURNAL_STACK_UNDO 45056
#define JOURNAL_STACK_COUNT_RECORDS 1024

/*
 * Starts a journal of this many items, without records ("start"). Answers 0.
 *
 * journal: written where accepted, its first 20 bytes only. It is not read.
 *
 * Refusals in order: 1 (under 20 bytes), 2 (items is 0 or above 1,024). Place 0.
 */
JOURNAL_MUST_USE
uint32_t journal_start(uint8_t *journal, size_t journal_length, uint32_t items, uint64_t *answer);

/*
 * Adds one record to a journal ("post"). A write's before image is the table's amount. Answers 0.
 *
 * journal: read, and written where accepted: the new record's 20 bytes behind the last record, next of the transaction's last record
 *     before it (if there is one), and the head's record count. journal_length is the room, and may be more than the records fill.
 * table: one amount per item; read, and written where accepted: by a write its item, by an abort every item that the transaction
 *     wrote, which returns to the before image of the transaction's first write of it.
 * counts: how many reads, writes, commits and aborts the journal has, see enum journal_count; read, and written where accepted: one
 *     of them rises by one. All are 0 for a journal just started; journal_count_records gives those of a stored journal or a copy.
 * kind, transaction, item, after: of the new record. after must be 0 unless it is a write, item must be 0 for a commit or an abort.
 *
 * Refusals in order: 1 (under 20 bytes), 2, 1 (whole length), 3; 4 to 9, the lowest record first, at one record the lowest number;
 * 10, 15; then for the new record 4, 6, 7, 8, with place record count + 1; 14. Places of 1, 2, 3, 14 and 15 are 0.
 */
JOURNAL_MUST_USE
uint32_t journal_append(uint8_t *journal, size_t journal_length, int32_t *table, size_t table_length, uint32_t counts[JOURNAL_COUNTS],
                        uint8_t kind, uint16_t transaction, uint32_t item, int32_t after, uint64_t *answer);

/*
 * Counts the records of a stored journal, or of the copy that journal_undo wrote, by kind (the "tally"), so that journal_append can go on
 * with it. Answers 0. No record is checked, and one of another kind is in none of the counts: journal_append checks all of them.
 *
 * journal: read only.
 * counts: written where accepted, all four, see enum journal_count. They are not read.
 *
 * Refusals in order: 1 (under 20 bytes), 2, 1 (whole length). Place 0.
 */
JOURNAL_MUST_USE
uint32_t journal_count_records(const uint8_t *journal, size_t journal_length, uint32_t counts[JOURNAL_COUNTS], uint64_t *answer);

/*
 * Checks a journal with its table ("check"). Answers how many transactions are active.
 *
 * journal, table: read only.
 *
 * Refusals in order: 1 (under 20 bytes), 2, 1 (whole length), 3; 4 to 9, the lowest record first, at one record the lowest number;
 * 10. Places of 1, 2 and 3 are 0.
 */
JOURNAL_MUST_USE
uint32_t journal_check(const uint8_t *journal, size_t journal_length, const int32_t *table, size_t table_length, uint64_t *answer);

/*
 * Lists the records of one transaction, in order, by following its chain ("slip"). Answers how many there are.
 *
 * journal: read only.
 * lsns: written where accepted: as many entries from the front as the call answers, each a record number; the rest is not written.
 *     It is not read.
 *
 * Refusals in order: 1 (under 20 bytes), 2, 1 (whole length); 4 to 9, the lowest record first, at one record the lowest number;
 * 12 (a transaction of 0 or above 1,024 too), 14. Places of 1, 2, 12 and 14 are 0.
 */
JOURNAL_MUST_USE
uint32_t journal_chain(const uint8_t *journal, size_t journal_length, uint16_t transaction, uint32_t *lsns, size_t lsns_length,
                       uint64_t *answer);

/*
 * Undoes the listed transactions and every committed transaction that read from them, directly or through others ("take-back").
 * Answers the bytes of the copy: a journal of the same items with just the surviving transactions' records, in order, renumbered, with
 * next worked out again; those of undone and aborted transactions are left out. Copy and table left can be lent to the next call;
 * transactions undone before are unknown there (12), so strike them from its list.
 *
 * journal: read only.
 * table: one amount per item; read, and written where accepted: the opening amounts, with the after of every surviving write set in
 *     record order. Copy it first if you may have to go back: after the call it belongs to the copy and not to the journal.
 * bad: numbers of committed transactions; read only. It may be empty, and a number may be repeated.
 * status: written where accepted, all 1,025 bytes, see enum journal_status. It is not read.
 * out: written where accepted: as many bytes from the front as the call answers, at most those of the journal's records and head; the
 *     rest is not written. It is not read.
 * surviving, undone, aborted: how many transactions survive, are undone, and had been aborted; written where accepted.
 *
 * Refusals in order: 1 (under 20 bytes), 2, 1 (whole length), 3; 4 to 9, the lowest record first, at one record the lowest number;
 * 10, 11, 13, 12, 14. Places of 1, 2, 3, 13 and 14 are 0.
 */
JOURNAL_MUST_USE
uint32_t journal_undo(const uint8_t *journal, size_t journal_length, int32_t *table, size_t table_length, const uint16_t *bad,
                      size_t bad_length, uint8_t *status, size_t status_length, uint8_t *out, size_t out_length, uint32_t *surviving,
                      uint32_t *undone, uint32_t *aborted, uint64_t *answer);

/* The number of the archive's interface, JOURNAL_INTERFACE. An archive of another one has no function of this name. */
uint32_t journal_interface_1(void);

/* Document 01's word for the number of a refusal; "accepted" for 0, "?" for a number that no call returns. */
static inline const char *journal_refusal_word(uint32_t number) {
    switch (number) {
    case 0: return "accepted";
    case JOURNAL_REASON_TRUNCATED: return "torn";
    case JOURNAL_REASON_HEADER: return "head";
    case JOURNAL_REASON_TABLE_LENGTH: return "table";
    case JOURNAL_REASON_MALFORMED: return "smudge";
    case JOURNAL_REASON_CHAIN: return "chain";
    case JOURNAL_REASON_CLOSED: return "closed";
    case JOURNAL_REASON_CONFLICT: return "crossed";
    case JOURNAL_REASON_BLIND: return "blind";
    case JOURNAL_REASON_BEFORE_IMAGE: return "before";
    case JOURNAL_REASON_FINAL_STATE: return "close";
    case JOURNAL_REASON_ACTIVE: return "open";
    case JOURNAL_REASON_UNKNOWN: return "unknown";
    case JOURNAL_REASON_STATUS_LENGTH: return "marks";
    case JOURNAL_REASON_CAPACITY: return "paper";
    case JOURNAL_REASON_COUNTS: return "tally";
    case JOURNAL_REASON_LOANS: return "loans";
    default: return "?";
    }
}

/* What the place of a refusal of this number is: "record", "item", "sale" or "position"; "" where it is always 0. In chain the place of
   12 is 0 and no position. */
static inline const char *journal_place_word(uint32_t number) {
    switch (number) {
    case JOURNAL_REASON_MALFORMED:
    case JOURNAL_REASON_CHAIN:
    case JOURNAL_REASON_CLOSED:
    case JOURNAL_REASON_CONFLICT:
    case JOURNAL_REASON_BLIND:
    case JOURNAL_REASON_BEFORE_IMAGE: return "record";
    case JOURNAL_REASON_FINAL_STATE: return "item";
    case JOURNAL_REASON_ACTIVE: return "sale";
    case JOURNAL_REASON_UNKNOWN: return "position";
    default: return "";
    }
}

/*
 * Reading a journal's bytes. Nothing is checked but the length: journal_check says whether the fields are right.
 */

/* The two counts of a head. */
struct journal_head {
    uint32_t records, items;
};

/* The fields of a record, by the layout above. */
struct journal_record {
    uint8_t kind, byte_1;
    uint16_t transaction;
    uint32_t next, item;
    int32_t before, after;
};

/* Little-endian numbers. */
static inline uint32_t journal_u32(const uint8_t *bytes) {
    return (uint32_t)bytes[0] | (uint32_t)bytes[1] << 8 | (uint32_t)bytes[2] << 16 | (uint32_t)bytes[3] << 24;
}

static inline int32_t journal_i32(const uint8_t *bytes) {
    uint32_t number = journal_u32(bytes);
    return number <= INT32_MAX ? (int32_t)number : -1 - (int32_t)(UINT32_MAX - number);
}

/* Reads the head; 0 where there are fewer than 20 bytes, and then nothing is written. */
JOURNAL_MUST_USE
static inline int journal_head_of(const uint8_t *journal, size_t journal_length, struct journal_head *head) {
    if (journal_length < JOURNAL_RECORD_BYTES) return 0;
    head->records = journal_u32(journal + 4);
    head->items = journal_u32(journal + 8);
    return 1;
}

/* Reads the record of this number, from 1 (0 is the head); 0 where its 20 bytes are not there, and then nothing is written. */
JOURNAL_MUST_USE
static inline int journal_record_at(const uint8_t *journal, size_t journal_length, uint32_t lsn, struct journal_record *record) {
    const uint8_t *bytes;
    if (journal_length / JOURNAL_RECORD_BYTES <= lsn) return 0;
    bytes = journal + (size_t)lsn * JOURNAL_RECORD_BYTES;
    record->kind = bytes[0];
    record->byte_1 = bytes[1];
    record->transaction = (uint16_t)(bytes[2] | bytes[3] << 8);
    record->next = journal_u32(bytes + 4);
    record->item = journal_u32(bytes + 8);
    record->before = journal_i32(bytes + 12);
    record->after = journal_i32(bytes + 16);
    return 1;
}

/*
 * The checked forms.
 */
#ifndef JOURNAL_UNCHECKED

/* A loan: its elements, the bytes of each, which are its alignment too, and whether the call writes to it. */
struct journal_loan {
    const void *start;
    size_t length, size;
    int written;
};

/* The first address behind a loan. */
static inline uintptr_t journal_loan_end(const struct journal_loan *loan) {
    return (uintptr_t)loan->start + loan->length * loan->size;
}

/* It is aligned, and if it is not empty, not null and with an end. */
static inline int journal_loan_stands(const struct journal_loan *loan) {
    uintptr_t start = (uintptr_t)loan->start;
    if (start % loan->size != 0) return 0;
    return loan->length == 0 || (loan->start != NULL && loan->length <= (UINTPTR_MAX - start) / loan->size);
}

/* Two loans that stand have no byte in common. */
static inline int journal_loans_apart(const struct journal_loan *one, const struct journal_loan *other) {
    return one->length == 0 || other->length == 0 || journal_loan_end(one) <= (uintptr_t)other->start ||
           journal_loan_end(other) <= (uintptr_t)one->start;
}

/* What the library asks of a call's loans: each stands, and what is written is apart from all others. */
static inline int journal_loans_good(const struct journal_loan *loans, size_t count) {
    size_t i, j;
    for (i = 0; i < count; i++)
        if (!journal_loan_stands(&loans[i])) return 0;
    for (i = 0; i < count; i++)
        for (j = 0; j < i; j++)
            if ((loans[i].written || loans[j].written) && !journal_loans_apart(&loans[i], &loans[j])) return 0;
    return 1;
}

/* The loan of a pointer with its length; a call reads it only, or writes to it too. */
#define JOURNAL_READS(pointer, length) {(pointer), (length), sizeof *(pointer), 0}
#define JOURNAL_WRITES(pointer, length) {(pointer), (length), sizeof *(pointer), 1}
#define JOURNAL_GOOD(loans) journal_loans_good((loans), sizeof(loans) / sizeof *(loans))

JOURNAL_MUST_USE
static inline uint32_t journal_checked_start(uint8_t *journal, size_t journal_length, uint32_t items, uint64_t *answer) {
    const struct journal_loan loans[] = {JOURNAL_WRITES(journal, journal_length), JOURNAL_WRITES(answer, 1)};
    if (!JOURNAL_GOOD(loans)) return JOURNAL_REASON_LOANS;
    journal_interface_1();
    return journal_start(journal, journal_length, items, answer);
}

JOURNAL_MUST_USE
static inline uint32_t journal_checked_append(uint8_t *journal, size_t journal_length, int32_t *table, size_t table_length,
                                              uint32_t counts[JOURNAL_COUNTS], uint8_t kind, uint16_t transaction, uint32_t item,
                                              int32_t after, uint64_t *answer) {
    const struct journal_loan loans[] = {JOURNAL_WRITES(journal, journal_length), JOURNAL_WRITES(table, table_length),
                                         JOURNAL_WRITES(counts, JOURNAL_COUNTS), JOURNAL_WRITES(answer, 1)};
    if (!JOURNAL_GOOD(loans)) return JOURNAL_REASON_LOANS;
    journal_interface_1();
    return journal_append(journal, journal_length, table, table_length, counts, kind, transaction, item, after, answer);
}

JOURNAL_MUST_USE
static inline uint32_t journal_checked_count_records(const uint8_t *journal, size_t journal_length, uint32_t counts[JOURNAL_COUNTS],
                                                     uint64_t *answer) {
    const struct journal_loan loans[] = {JOURNAL_READS(journal, journal_length), JOURNAL_WRITES(counts, JOURNAL_COUNTS),
                                         JOURNAL_WRITES(answer, 1)};
    if (!JOURNAL_GOOD(loans)) return JOURNAL_REASON_LOANS;
    journal_interface_1();
    return journal_count_records(journal, journal_length, counts, answer);
}

JOURNAL_MUST_USE
static inline uint32_t journal_checked_check(const uint8_t *journal, size_t journal_length, const int32_t *table, size_t table_length,
                                             uint64_t *answer) {
    const struct journal_loan loans[] = {JOURNAL_READS(journal, journal_length), JOURNAL_READS(table, table_length),
                                         JOURNAL_WRITES(answer, 1)};
    if (!JOURNAL_GOOD(loans)) return JOURNAL_REASON_LOANS;
    journal_interface_1();
    return journal_check(journal, journal_length, table, table_length, answer);
}

JOURNAL_MUST_USE
static inline uint32_t journal_checked_chain(const uint8_t *journal, size_t journal_length, uint16_t transaction, uint32_t *lsns,
                                             size_t lsns_length, uint64_t *answer) {
    const struct journal_loan loans[] = {JOURNAL_READS(journal, journal_length), JOURNAL_WRITES(lsns, lsns_length),
                                         JOURNAL_WRITES(answer, 1)};
    if (!JOURNAL_GOOD(loans)) return JOURNAL_REASON_LOANS;
    journal_interface_1();
    return journal_chain(journal, journal_length, transaction, lsns, lsns_length, answer);
}

JOURNAL_MUST_USE
static inline uint32_t journal_checked_undo(const uint8_t *journal, size_t journal_length, int32_t *table, size_t table_length,
                                            const uint16_t *bad, size_t bad_length, uint8_t *status, size_t status_length, uint8_t *out,
                                            size_t out_length, uint32_t *surviving, uint32_t *undone, uint32_t *aborted,
                                            uint64_t *answer) {
    const struct journal_loan loans[] = {
        JOURNAL_READS(journal, journal_length), JOURNAL_WRITES(table, table_length), JOURNAL_READS(bad, bad_length),
        JOURNAL_WRITES(status, status_length),  JOURNAL_WRITES(out, out_length),     JOURNAL_WRITES(surviving, 1),
        JOURNAL_WRITES(undone, 1),              JOURNAL_WRITES(aborted, 1),          JOURNAL_WRITES(answer, 1),
    };
    if (!JOURNAL_GOOD(loans)) return JOURNAL_REASON_LOANS;
    journal_interface_1();
    return journal_undo(journal, journal_length, table, table_length, bad, bad_length, status, status_length, out, out_length, surviving,
                        undone, aborted, answer);
}

#undef JOURNAL_READS
#undef JOURNAL_WRITES
#undef JOURNAL_GOOD

#define journal_start journal_checked_start
#define journal_append journal_checked_append
#define journal_count_records journal_checked_count_records
#define journal_check journal_checked_check
#define journal_chain journal_checked_chain
#define journal_undo journal_checked_undo

#endif

#ifdef __cplusplus
}
#endif

#endif
