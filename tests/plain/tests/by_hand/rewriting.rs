//! "A rewrite of the same amount" (02, request 3): what feeds a read where a write leaves the amount
//! as it was. Each day is one on which a rule that is near to it gives another answer.

use crate::common::*;
use crate::{report, CALLS};
use plain::compare::undos_in_turn;
use plain::days::{UndoCall, UndoSequence};
use plain::properties::cutting::compare_with_one_call;

const LOWEST: i32 = -2_147_483_648;
const HIGHEST: i32 = 2_147_483_647;

/// What is undone of a day that passes.
fn undone(lines: &[Line], table: &[i32], bad: &[u16]) -> Vec<u16> {
    let bytes = journal(table.len() as u32, lines);
    assert_eq!(check(&bytes, table), Ok(0));
    repair(&bytes, table, bad).undone
}

/// The write that feeds each read; none for the opening amount.
fn fed(items: u32, lines: &[Line]) -> Vec<(u32, Option<u32>)> {
    plain::removal(&journal(items, lines), &[])
}

fn printed(lines: &[Line], table: &[i32], bad: u16) -> String {
    let file: Vec<u8> = table.iter().flat_map(|v| v.to_le_bytes()).collect();
    let bytes = journal(table.len() as u32, lines);
    String::from_utf8(report(&bytes, &file, &bad.to_le_bytes())).unwrap()
}

/// The request's case: bad 1 rewrites item 2 at 1000, 2 reads it later and is kept.
#[test]
fn a_bad_rewrite_of_item_2_at_1000() {
    let lines = [
        read(1, 2),
        write(1, 2, 1000, 1000),
        commit(1),
        read(2, 2),
        commit(2),
    ];
    let table = [500, 0, 1000];
    assert_eq!(fed(3, &lines), [(1, None), (4, None)]);
    let left = repair(&journal(3, &lines), &table, &[1]);
    assert_eq!(left.answer, counts(1, 1, 0, 60));
    assert_eq!((left.undone, left.surviving), (vec![1], vec![2]));
    assert_eq!(left.table, table);
    assert_eq!(left.repaired, journal(3, &[read(2, 2), commit(2)]));
    assert_eq!(
        printed(&lines, &table, 1),
        "JOURNAL 5 COPY 2\nBACK 1\nSUM 0\nEND 1 1 0\n"
    );
    // The reader may change it, and its own readers stay too.
    let more = [
        read(1, 2),
        write(1, 2, 1000, 1000),
        commit(1),
        read(2, 2),
        write(2, 2, 1000, 1180),
        commit(2),
        read(3, 2),
        commit(3),
    ];
    assert_eq!(undone(&more, &[500, 0, 1180], &[1]), [1]);
    assert_eq!(undone(&more, &[500, 0, 1180], &[2]), [2, 3]);
}

/// 1 changes, 2 rewrites, 3 reads: 1's write feeds 3 through the rewrite.
fn hidden() -> [Line; 8] {
    [
        read(1, 0),
        write(1, 0, 500, 320),
        commit(1),
        read(2, 0),
        write(2, 0, 320, 320),
        commit(2),
        read(3, 0),
        commit(3),
    ]
}

#[test]
fn a_rewrite_hides_a_write_that_feeds() {
    assert_eq!(fed(1, &hidden()), [(1, None), (4, Some(2)), (7, Some(2))]);
    // The rewriting transaction has read the amount too, and goes with the reader.
    let left = repair(&journal(1, &hidden()), &[320], &[1]);
    assert_eq!(left.undone, [1, 2, 3]);
    assert_eq!(left.table, [500]);
    // Without it the reader is fed as before.
    let bytes = journal(1, &hidden());
    assert_eq!(plain::removal(&bytes, &[2]), [(1, None), (7, Some(2))]);
    assert_eq!(plain::removal(&bytes, &[1]), [(4, None), (7, None)]);
}

#[test]
fn a_bad_rewrite_of_a_good_amount() {
    let left = repair(&journal(1, &hidden()), &[320], &[2]);
    assert_eq!(left.undone, [2]);
    assert_eq!(left.table, [320]);
    let kept = [
        read(1, 0),
        write(1, 0, 500, 320),
        commit(1),
        read(3, 0),
        commit(3),
    ];
    assert_eq!(left.repaired, journal(1, &kept));
}

/// A transaction that changes the amount and writes it once more feeds by the change.
#[test]
fn a_change_and_a_rewrite_in_one_transaction() {
    let lines = [
        read(1, 0),
        write(1, 0, 500, 320),
        write(1, 0, 320, 320),
        commit(1),
        read(2, 0),
        commit(2),
    ];
    assert_eq!(fed(1, &lines), [(1, None), (5, Some(2))]);
    assert_eq!(undone(&lines, &[320], &[1]), [1, 2]);
    // The other way round, too.
    let lines = [
        read(1, 0),
        write(1, 0, 500, 500),
        write(1, 0, 500, 320),
        commit(1),
        read(2, 0),
        commit(2),
    ];
    assert_eq!(fed(1, &lines), [(1, None), (5, Some(3))]);
    assert_eq!(undone(&lines, &[320], &[1]), [1, 2]);
}

/// Each of many rewrites in turn may go alone.
#[test]
fn rewrites_in_turn() {
    let mut lines = vec![read(1, 0), write(1, 0, 7, 5), commit(1)];
    for transaction in 2..=6 {
        lines.extend([
            read(transaction, 0),
            write(transaction, 0, 5, 5),
            commit(transaction),
        ]);
    }
    for transaction in 2..=6 {
        assert_eq!(undone(&lines, &[5], &[transaction]), [transaction]);
    }
    assert_eq!(undone(&lines, &[5], &[4, 2]), [2, 4]);
    assert_eq!(undone(&lines, &[5], &[1]), [1, 2, 3, 4, 5, 6]);
}

#[test]
fn an_aborted_transaction_between() {
    // It rewrites; it changes and rewrites: neither feeds another transaction.
    let writes = [
        vec![write(2, 0, 320, 320)],
        vec![write(2, 0, 320, 900), write(2, 0, 900, 900)],
        vec![write(2, 0, 320, 320), write(2, 0, 320, 900)],
    ];
    for writes in writes {
        let mut lines = vec![read(1, 0), write(1, 0, 500, 320), commit(1), read(2, 0)];
        lines.extend(writes);
        lines.extend([abort(2), read(3, 0), commit(3)]);
        let feeds = fed(1, &lines);
        assert_eq!(feeds.last(), Some(&(lines.len() as u32 - 1, Some(2))));
        assert_eq!(undone(&lines, &[320], &[1]), [1, 3]);
    }
    // Its own reads are fed by its own change.
    let lines = [
        read(1, 0),
        write(1, 0, 500, 320),
        write(1, 0, 320, 320),
        read(1, 0),
        abort(1),
        read(2, 0),
        commit(2),
    ];
    assert_eq!(fed(1, &lines), [(1, None), (4, Some(2)), (6, None)]);
}

/// What counts is the write's before, not what the write ahead of it left and a rollback undid.
#[test]
fn the_amount_of_an_aborted_write() {
    let day = |after: i32| {
        [
            read(1, 0),
            write(1, 0, 5, 7),
            abort(1),
            read(2, 0),
            write(2, 0, 5, after),
            commit(2),
            read(3, 0),
            commit(3),
        ]
    };
    assert_eq!(undone(&day(5), &[5], &[2]), [2]);
    assert_eq!(undone(&day(7), &[7], &[2]), [2, 3]);
}

/// 5 to 7 to 5: the last write changed the amount, though the transaction did not.
#[test]
fn there_and_back_in_one_transaction() {
    let lines = [
        read(1, 0),
        write(1, 0, 5, 7),
        write(1, 0, 7, 5),
        commit(1),
        read(2, 0),
        commit(2),
    ];
    assert_eq!(fed(1, &lines), [(1, None), (5, Some(3))]);
    let left = repair(&journal(1, &lines), &[5], &[1]);
    assert_eq!(left.undone, [1, 2]);
    assert_eq!(left.table, [5]);
    // With rewrites at each amount it is the same write.
    let lines = [
        read(1, 0),
        write(1, 0, 5, 5),
        write(1, 0, 5, 7),
        write(1, 0, 7, 7),
        write(1, 0, 7, 5),
        write(1, 0, 5, 5),
        commit(1),
        read(2, 0),
        commit(2),
    ];
    assert_eq!(fed(1, &lines), [(1, None), (8, Some(5))]);
    assert_eq!(undone(&lines, &[5], &[1]), [1, 2]);
}

/// What counts is the write's own before, not the opening amount.
#[test]
fn there_and_back_by_two_transactions() {
    let lines = [
        read(1, 0),
        write(1, 0, 5, 7),
        commit(1),
        read(2, 0),
        write(2, 0, 7, 5),
        commit(2),
        read(3, 0),
        commit(3),
    ];
    assert_eq!(fed(1, &lines), [(1, None), (4, Some(2)), (7, Some(5))]);
    assert_eq!(undone(&lines, &[5], &[2]), [2, 3]);
    // And a rewrite does not feed at another amount than the opening one.
    let lines = [
        read(1, 0),
        write(1, 0, 5, 7),
        commit(1),
        read(2, 0),
        write(2, 0, 7, 7),
        commit(2),
        read(3, 0),
        commit(3),
    ];
    assert_eq!(undone(&lines, &[7], &[2]), [2]);
}

/// 2 reads what bad 1 wrote, rewrites it and reads it again: no own write feeds it.
#[test]
fn an_own_rewrite_ahead_of_an_own_read() {
    let lines = [
        read(1, 0),
        write(1, 0, 5, 7),
        commit(1),
        read(2, 0),
        write(2, 0, 7, 7),
        read(2, 0),
        commit(2),
    ];
    assert_eq!(fed(1, &lines), [(1, None), (4, Some(2)), (6, Some(2))]);
    assert_eq!(undone(&lines, &[7], &[1]), [1, 2]);
    let bytes = journal(1, &lines);
    assert_eq!(plain::removal(&bytes, &[1]), [(4, None), (6, None)]);
    // An own change feeds it, and not the rewrite behind the change.
    let lines = [
        read(1, 0),
        write(1, 0, 5, 7),
        read(1, 0),
        write(1, 0, 7, 7),
        read(1, 0),
        commit(1),
    ];
    assert_eq!(fed(1, &lines), [(1, None), (3, Some(2)), (5, Some(2))]);
    // Nobody has changed the amount.
    let lines = [read(1, 0), write(1, 0, 5, 5), read(1, 0), commit(1)];
    assert_eq!(fed(1, &lines), [(1, None), (3, None)]);
}

#[test]
fn the_copy_has_a_kept_rewrite() {
    let lines = [
        read(1, 0),
        write(1, 0, 500, 320),
        commit(1),
        read(2, 1),
        write(2, 1, 70, 70),
        write(2, 1, 70, 70),
        commit(2),
    ];
    let left = repair(&journal(2, &lines), &[320, 70], &[1]);
    assert_eq!(left.answer, counts(1, 1, 0, 100));
    assert_eq!(left.table, [500, 70]);
    assert_eq!(left.repaired, journal(2, &lines[3..]));
    assert_eq!(
        printed(&lines, &[320, 70], 1),
        "JOURNAL 7 COPY 4\nBACK 1\nITEM 0 320 500\nSUM 0\nEND 1 1 0\n"
    );
    // Behind a bad rewrite of the same item it has its before still.
    let lines = [
        read(1, 0),
        write(1, 0, 70, 70),
        commit(1),
        read(2, 0),
        write(2, 0, 70, 70),
        commit(2),
        read(3, 0),
        write(3, 0, 70, 90),
        commit(3),
    ];
    let left = repair(&journal(1, &lines), &[90], &[1]);
    assert_eq!(left.answer, counts(2, 1, 0, 140));
    assert_eq!(left.repaired, journal(1, &lines[3..]));
    assert_eq!(left.table, [90]);
}

/// Whether a transaction is drawn in that reads after a bad write of these amounts.
fn draws_in(before: i32, after: i32) -> bool {
    let lines = [
        read(1, 0),
        write(1, 0, before, after),
        commit(1),
        read(2, 0),
        commit(2),
    ];
    let left = repair(&journal(1, &lines), &[after], &[1]);
    assert_eq!(left.table, [before]);
    let drawn = left.undone == [1, 2];
    assert!(drawn || left.undone == [1]);
    drawn
}

#[test]
fn amounts_on_both_sides() {
    for before in [
        LOWEST,
        LOWEST + 1,
        -1000,
        -1,
        0,
        1,
        1000,
        32_767,
        65_536,
        HIGHEST,
    ] {
        assert!(!draws_in(before, before));
        assert!(draws_in(before, before.wrapping_add(1)));
        assert!(draws_in(before, before.wrapping_sub(1)));
        // Each bit is compared.
        for bit in 0..32 {
            assert!(draws_in(before, before ^ 1 << bit));
        }
    }
    for (before, after) in [(LOWEST, HIGHEST), (LOWEST, 0), (HIGHEST, 0), (HIGHEST, -1)] {
        assert!(draws_in(before, after));
        assert!(draws_in(after, before));
    }
}

/// For every rule but feeding a rewrite is a write.
#[test]
fn a_rewrite_is_a_write_to_the_checks() {
    for (lines, number, place) in [
        (vec![read(1, 0), write(1, 0, 5, 5), read(2, 0)], 7, 3),
        (vec![read(1, 0), read(2, 0), write(1, 0, 5, 5)], 7, 3),
        (vec![write(1, 0, 5, 5), commit(1)], 8, 1),
        (vec![read(1, 0), commit(1), write(2, 0, 5, 5)], 8, 3),
        (vec![read(1, 0), write(1, 0, 5, 5), write(1, 0, 6, 6)], 9, 3),
        (vec![read(1, 0), write(1, 0, 6, 6), write(1, 0, 5, 5)], 9, 3),
        (vec![read(1, 0), write(1, 0, 6, 6), commit(1)], 10, 0),
    ] {
        assert_eq!(check(&journal(1, &lines), &[5]), refused(number, place));
    }
    // A rollback goes back to the before of the first write, which may be a rewrite.
    let lines = [
        read(1, 0),
        write(1, 0, 5, 5),
        write(1, 0, 5, 9),
        abort(1),
        read(2, 0),
        write(2, 0, 5, 6),
        commit(2),
    ];
    assert_eq!(check(&journal(1, &lines), &[6]), Ok(0));
    assert_eq!(repair(&journal(1, &lines), &[6], &[2]).table, [5]);
}

#[test]
fn a_rewrite_is_posted_as_a_write() {
    let (bytes, table) = append(&journal(1, &[read(1, 0)]), &[5], write(1, 0, 0, 5)).unwrap();
    assert_eq!(bytes, journal(1, &[read(1, 0), write(1, 0, 5, 5)]));
    assert_eq!(table, [5]);
    assert_eq!(append_refusal(&bytes, &table, read(2, 0)), (7, 3));
    let head = journal(1, &[]);
    assert_eq!(append_refusal(&head, &[5], write(1, 0, 0, 5)), (8, 1));
}

/// 3,200 records of 1,024 transactions that leave the amount as it is.
#[test]
fn a_full_journal_of_rewrites() {
    let mut lines = Vec::new();
    for transaction in 1..=1_024 {
        lines.push(read(transaction, 0));
        lines.push(write(transaction, 0, 5, 5));
        if transaction <= 128 {
            lines.push(read(transaction, 0));
        }
        lines.push(commit(transaction));
    }
    let full = journal(1, &lines);
    assert_eq!(full.len(), 64_020);
    for transaction in [1, 128, 1_024] {
        let records = if transaction <= 128 { 4 } else { 3 };
        let left = repair(&full, &[5], &[transaction]);
        assert_eq!(left.undone, [transaction]);
        assert_eq!(left.answer, counts(1_023, 1, 0, 64_020 - 20 * records));
        assert_eq!(left.table, [5]);
    }
    assert_eq!(repair(&full, &[5], &[]).repaired, full);
    // One change at the front feeds them all.
    lines[1] = write(1, 0, 4, 5);
    let left = repair(&journal(1, &lines), &[5], &[1]);
    assert_eq!(left.answer, counts(0, 1_024, 0, 20));
    assert_eq!(left.table, [4]);
}

/// The rewriting transaction goes alone if it is first; the other call then finds the reader.
#[test]
fn a_list_cut_at_a_rewrite() {
    let call = |bad: &[u16]| UndoCall {
        bad: bad.to_vec(),
        status: vec![0xAA; 1_025],
        out: vec![0xAA; 180],
    };
    for (lists, first) in [([2, 1], vec![2]), ([1, 2], vec![1, 2, 3])] {
        let sequence = UndoSequence {
            journal: journal(1, &hidden()),
            table: vec![320],
            calls: lists.map(|name| call(&[name])).to_vec(),
        };
        let steps = undos_in_turn(&CALLS, &sequence);
        let status = &steps[0].answer.status;
        let marked = (0..1_025u16).filter(|&t| status[t as usize] == 2);
        assert!(marked.eq(first));
        assert_eq!(steps[1].answer.table, [500]);
        assert_eq!(compare_with_one_call(&CALLS, &sequence), 2);
    }
}
