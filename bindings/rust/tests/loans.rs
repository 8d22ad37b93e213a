//! What `journal.h` says of a null pointer with length 0: an empty loan, in every call.

use journal::{append, kind, raw, start, Counts, Item, Transaction, STATUS_BYTES};
use std::ptr::{null, null_mut};

/// A journal of one committed sale, 80 bytes, that passes with the table 320.
fn sale() -> [u8; 80] {
    let (mut journal, mut table, mut counts) = ([0; 80], [500], Counts::default());
    start(&mut journal, 1).unwrap();
    for (kind, after) in [(kind::READ, 0), (kind::WRITE, 320), (kind::COMMIT, 0)] {
        let (sale, item) = (Transaction(1), Item(0));
        append(
            &mut journal,
            &mut table,
            &mut counts,
            kind,
            sale,
            item,
            after,
        )
        .unwrap();
    }
    journal
}

#[test]
fn start_and_append() {
    let (mut journal, mut table, mut counts) = (sale(), [320], [1, 1, 1, 0]);
    let mut answer = 9;
    // SAFETY: every pointer is null with length 0, or of an array of that length that nothing else uses.
    let number = unsafe { raw::journal_start(null_mut(), 0, 1, &mut answer) };
    assert_eq!((number, answer), (1, 0));

    let (lent, amounts) = (journal.as_mut_ptr(), table.as_mut_ptr());
    let counted = counts.as_mut_ptr();
    for (journal, journal_length, table, table_length, refusal) in [
        (null_mut(), 0, amounts, 1, 1),
        (lent, 80, null_mut(), 0, 3),
        (null_mut(), 0, null_mut(), 0, 1),
    ] {
        let mut answer = 9;
        // SAFETY: every pointer is null with length 0, or of an array of that length that nothing else uses.
        let number = unsafe {
            raw::journal_append(
                journal,
                journal_length,
                table,
                table_length,
                counted,
                kind::COMMIT,
                2,
                0,
                0,
                &mut answer,
            )
        };
        assert_eq!((number, answer), (refusal, 0));
    }
    assert_eq!((journal, table, counts), (sale(), [320], [1, 1, 1, 0]));
}

#[test]
fn count_records() {
    let (journal, mut counts) = (sale(), [9; 4]);
    let counted = counts.as_mut_ptr();
    for (journal, length, expected) in [(null(), 0, 1), (journal.as_ptr(), 80, 0)] {
        let mut answer = 9;
        // SAFETY: every pointer is null with length 0, or of an array of that length that nothing else uses.
        let number = unsafe { raw::journal_count_records(journal, length, counted, &mut answer) };
        assert_eq!((number, answer), (expected, 0));
        if expected == 1 {
            assert_eq!(counts, [9; 4]);
        }
    }
    assert_eq!(counts, [1, 1, 1, 0]);
}

#[test]
fn check_and_chain() {
    let (journal, table) = (sale(), [320]);
    let mut lsns = [0; 3];
    let (lent, amounts, list) = (journal.as_ptr(), table.as_ptr(), lsns.as_mut_ptr());
    for (journal, journal_length, table, table_length, refusal) in [
        (null(), 0, amounts, 1, 1),
        (lent, 80, null(), 0, 3),
        (null(), 0, null(), 0, 1),
    ] {
        let mut answer = 9;
        // SAFETY: every pointer is null with length 0, or of an array of that length that nothing else uses.
        let number = unsafe {
            raw::journal_check(journal, journal_length, table, table_length, &mut answer)
        };
        assert_eq!((number, answer), (refusal, 0));
    }
    for (journal, journal_length, transaction, lsns, lsns_length, refusal) in [
        (null(), 0, 1, list, 3, 1),
        (lent, 80, 1, null_mut(), 0, 14),
        (lent, 80, 2, null_mut(), 0, 12),
    ] {
        let mut answer = 9;
        // SAFETY: every pointer is null with length 0, or of an array of that length that nothing else uses.
        let number = unsafe {
            raw::journal_chain(
                journal,
                journal_length,
                transaction,
                lsns,
                lsns_length,
                &mut answer,
            )
        };
        assert_eq!((number, answer), (refusal, 0));
    }
}

/// Undo of sale 1 with one loan null: journal, table, bad, status, out, or none.
fn undo_without(loan: usize) -> (u32, u64, [u32; 3], i32) {
    let (journal, mut table, bad) = (sale(), [320], [1]);
    let (mut status, mut out) = ([0; STATUS_BYTES], [0; 80]);
    let (mut counts, mut answer) = ([9; 3], 9);
    let [surviving, undone, aborted] = &mut counts;
    let length = |index, elements| if index == loan { 0 } else { elements };
    // SAFETY: every pointer is null with length 0, or of an array of that length that nothing else uses.
    let number = unsafe {
        raw::journal_undo(
            if loan == 0 { null() } else { journal.as_ptr() },
            length(0, 80),
            if loan == 1 {
                null_mut()
            } else {
                table.as_mut_ptr()
            },
            length(1, 1),
            if loan == 2 { null() } else { bad.as_ptr() },
            length(2, 1),
            if loan == 3 {
                null_mut()
            } else {
                status.as_mut_ptr()
            },
            length(3, STATUS_BYTES),
            if loan == 4 {
                null_mut()
            } else {
                out.as_mut_ptr()
            },
            length(4, 80),
            surviving,
            undone,
            aborted,
            &mut answer,
        )
    };
    (number, answer, counts, table[0])
}

#[test]
fn undo() {
    for (loan, refusal) in [(0, 1), (1, 3), (3, 13), (4, 14)] {
        assert_eq!(undo_without(loan), (refusal, 0, [9; 3], 320));
    }
    assert_eq!(undo_without(2), (0, 80, [1, 0, 0], 320));
    assert_eq!(undo_without(5), (0, 20, [0, 1, 0], 500));
}
