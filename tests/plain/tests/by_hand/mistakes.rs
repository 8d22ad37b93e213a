//! "Slips a good programmer would make": days on which each of them gives a wrong figure.

use crate::common::*;

/// Undoing forward, each write to its own before, would leave item 0 at 20: 1's write goes back
/// to 10, then 2's write goes back to 20, which is bad 1's amount.
#[test]
fn undo_is_not_forward() {
    let lines = [
        read(1, 0),
        write(1, 0, 10, 20),
        commit(1),
        read(2, 0),
        write(2, 0, 20, 30),
        commit(2),
    ];
    let repair = repair(&journal(1, &lines), &[30], &[1]);
    assert_eq!(repair.undone, [1, 2]);
    assert_eq!(repair.table, [10]);
}

/// The same within one transaction that writes twice.
#[test]
fn undo_of_two_writes_of_one_transaction() {
    let lines = [
        read(1, 0),
        write(1, 0, 10, 20),
        write(1, 0, 20, 30),
        commit(1),
    ];
    assert_eq!(repair(&journal(1, &lines), &[30], &[1]).table, [10]);
}

/// Direct readers only would keep 3 and 4.
#[test]
fn undo_follows_readers_of_readers() {
    let mut lines = vec![read(1, 0), write(1, 0, 0, 1), commit(1)];
    for transaction in 2..=4u16 {
        let item = u32::from(transaction) - 1;
        lines.push(read(transaction, item - 1));
        lines.push(read(transaction, item));
        lines.push(write(transaction, item, 0, 1));
        lines.push(commit(transaction));
    }
    let bytes = journal(4, &lines);
    let all = repair(&bytes, &[1; 4], &[1]);
    assert_eq!(all.undone, [1, 2, 3, 4]);
    assert_eq!(all.table, [0; 4]);
    let from_three = repair(&bytes, &[1; 4], &[3]);
    assert_eq!(from_three.undone, [3, 4]);
    assert_eq!(from_three.table, [1, 1, 0, 0]);
}

/// A transaction is judged whole: its writes ahead of the bad read go too, and so do their
/// readers.
#[test]
fn undo_takes_writes_ahead_of_the_bad_read() {
    let lines = [
        read(1, 0),
        write(1, 0, 0, 1),
        read(2, 2),
        write(2, 2, 0, 1),
        commit(1),
        read(2, 0),
        commit(2),
        read(3, 2),
        commit(3),
    ];
    let repair = repair(&journal(3, &lines), &[1, 0, 1], &[1]);
    assert_eq!(repair.undone, [1, 2, 3]);
    assert_eq!(repair.table, [0, 0, 0]);
}

/// Beginning after the bad one is no reason to go.
#[test]
fn undo_keeps_later_independent_transactions() {
    let lines = [
        read(1, 0),
        write(1, 0, 0, 1),
        commit(1),
        read(2, 1),
        write(2, 1, 0, 1),
        commit(2),
        read(3, 1),
        commit(3),
    ];
    let repair = repair(&journal(2, &lines), &[1, 1], &[1]);
    assert_eq!(repair.undone, [1]);
    assert_eq!(repair.surviving, [2, 3]);
    assert_eq!(repair.table, [0, 1]);
}

/// Reading an item before the bad transaction wrote it is no dependence.
#[test]
fn undo_keeps_earlier_readers() {
    let lines = [
        read(2, 0),
        commit(2),
        read(1, 0),
        write(1, 0, 0, 1),
        commit(1),
    ];
    assert_eq!(repair(&journal(1, &lines), &[1], &[1]).undone, [1]);
}
