//! The points where two careful readers of document 01 differ: one test for each reading.

use crate::common::*;
use crate::{report, CALLS};
use plain::compare::Implementation;

#[test]
fn chains_compare_raw_bytes() {
    let mut bytes = EXAMPLE;
    set_transaction(&mut bytes, 4, 1_025);
    assert_eq!(check(&bytes, &EXAMPLE_TABLE), refused(5, 3));
    // With record 3's next put right, record 4 itself is the lowest.
    set4(&mut bytes, 3, 4, 5);
    assert_eq!(check(&bytes, &EXAMPLE_TABLE), refused(4, 4));
    // A later record that is malformed still belongs to its bytes 2-3.
    let mut bytes = EXAMPLE;
    bytes[40] = 9;
    assert_eq!(check(&bytes, &EXAMPLE_TABLE), refused(4, 2));
}

#[test]
fn record_count_one_too_low() {
    let mut bytes = EXAMPLE;
    bytes[4] = 10;
    assert_eq!(check(&bytes, &EXAMPLE_TABLE), refused(5, 9));
    // The record left behind is its transaction's only one: the shorter journal passes.
    for last in [commit(2), abort(2), read(2, 0)] {
        let lines = [read(1, 0), write(1, 0, 4, 5), commit(1), last];
        let mut bytes = journal(1, &lines);
        bytes[4] = 3;
        assert_eq!(check(&bytes, &[5]), Ok(0));
        assert_eq!(check(&bytes, &[6]), refused(10, 0));
    }
}

#[test]
fn head_before_whole_length() {
    let mut bytes = EXAMPLE[..60].to_vec();
    assert_eq!(check(&bytes, &EXAMPLE_TABLE), refused(1, 0));
    set4(&mut bytes, 0, 4, 3_201);
    assert_eq!(check(&bytes, &EXAMPLE_TABLE), refused(2, 0));
    // And the whole length before the table's.
    set4(&mut bytes, 0, 4, 3_200);
    assert_eq!(check(&bytes, &[]), refused(1, 0));
}

#[test]
fn terminations_as_first_records() {
    let bytes = journal(1, &[commit(1), abort(2)]);
    assert_eq!(check(&bytes, &[8]), Ok(0));
    let none = repair(&bytes, &[8], &[]);
    assert_eq!(none.answer, counts(1, 0, 1, 40));
    assert_eq!(none.surviving, [1]);
    let undone = repair(&bytes, &[8], &[1]);
    assert_eq!(undone.answer, counts(0, 1, 1, 20));
    assert_eq!(undone.undone, [1]);
    let refusal = undo_refusal(&bytes, &[8], &[1, 2]);
    assert_eq!((refusal.number, refusal.place), (12, 1));
    let mut lsns = [0];
    assert_eq!(chain(&bytes, 2, &mut lsns), Ok(1));
    assert_eq!(lsns, [2]);
}

#[test]
fn terminations_touch_no_item() {
    // Item 0 is written by active transaction 1; the ends of others do not cross it.
    let lines = [read(1, 0), write(1, 0, 4, 5), commit(2), abort(3)];
    assert_eq!(check(&journal(1, &lines), &[5]), Ok(1));
    // A commit is no read of item 0 for the rule of blind writes.
    let lines = [read(1, 1), commit(1), read(2, 1), write(2, 0, 0, 0)];
    assert_eq!(check(&journal(2, &lines), &[0, 0]), refused(8, 4));
}

#[test]
fn written_items_of_the_final_state() {
    let aborted = journal(1, &[read(1, 0), write(1, 0, 4, 5), abort(1)]);
    assert_eq!(check(&aborted, &[4]), Ok(0));
    assert_eq!(check(&aborted, &[5]), refused(10, 0));
    let active = journal(1, &[read(1, 0), write(1, 0, 4, 5)]);
    assert_eq!(check(&active, &[5]), Ok(1));
    assert_eq!(check(&active, &[4]), refused(10, 0));
    // An item that is only read may have any amount.
    let unwritten = journal(1, &[read(1, 0), commit(1)]);
    assert_eq!(check(&unwritten, &[i32::MIN]), Ok(0));
}

#[test]
fn initial_value_of_an_aborted_first_write() {
    // The first write's before is free; after the rollback the item stands at it.
    let lines = [
        read(1, 0),
        write(1, 0, 42, 5),
        write(1, 0, 5, 6),
        abort(1),
        read(2, 0),
        write(2, 0, 42, 7),
        commit(2),
    ];
    let bytes = journal(1, &lines);
    assert_eq!(check(&bytes, &[7]), Ok(0));
    let repair = repair(&bytes, &[7], &[2]);
    assert_eq!(repair.table, [42]);
    assert_eq!(repair.answer, counts(0, 1, 1, 20));
    // The second first-write must start from the standing amount.
    let mut wrong = lines;
    wrong[5] = write(2, 0, 5, 7);
    assert_eq!(check(&journal(1, &wrong), &[7]), refused(9, 6));
}

#[test]
fn blind_means_no_read_at_a_lower_record() {
    // A read later, a read by another, an own write, a read of another item: all blind.
    let later = [write(1, 0, 0, 0), read(1, 0)];
    assert_eq!(check(&journal(2, &later), &[0, 0]), refused(8, 1));
    let other = [read(2, 0), commit(2), write(1, 0, 0, 0)];
    assert_eq!(check(&journal(2, &other), &[0, 0]), refused(8, 3));
    let item = [read(1, 1), write(1, 0, 0, 0)];
    assert_eq!(check(&journal(2, &item), &[0, 0]), refused(8, 2));
    // One read serves several writes.
    let twice = [read(1, 0), write(1, 0, 0, 1), write(1, 0, 1, 2)];
    assert_eq!(check(&journal(2, &twice), &[2, 0]), Ok(1));
}

#[test]
fn order_of_undo() {
    let call = |lines: &[Line], status: usize, bad: &[u16], out: usize| {
        let mut status = vec![0; status];
        let mut out = vec![0; out];
        CALLS.undo(&journal(1, lines), &mut [0], bad, &mut status, &mut out)
    };
    let active = [read(1, 0)];
    let lines = [read(1, 0), commit(1)];
    assert_eq!(call(&active, 0, &[9], 0), refused(11, 1));
    assert_eq!(call(&lines, 0, &[9], 0), refused(13, 0));
    assert_eq!(call(&lines, 1_025, &[1, 9], 0), refused(12, 1));
    assert_eq!(call(&lines, 1_025, &[1], 19), refused(14, 0));
    assert_eq!(call(&lines, 1_025, &[1], 20), Ok(counts(0, 1, 0, 20)));
    assert_eq!(call(&lines, 1_025, &[], 59), refused(14, 0));
    assert_eq!(call(&lines, 1_025, &[], 60), Ok(counts(1, 0, 0, 60)));
}

#[test]
fn order_of_append() {
    let bytes = journal(2, &[read(1, 0), commit(1), read(2, 0), write(2, 0, 0, 3)]);
    let table = [3, 0];
    let mut wrong = [9; 4];
    let mut room = bytes.clone();
    room.extend([0; 20]);
    let answer = CALLS.append(&mut room, &mut table.clone(), &mut wrong, 0, 0, 9, 9);
    assert_eq!(answer, refused(15, 0));
    // 4: a nonzero after on a read, a nonzero item or after on an end, an item too high.
    assert_eq!(append_refusal(&bytes, &table, line(1, 3, 1, 0, 1)), (4, 5));
    for kind in [3, 4] {
        assert_eq!(
            append_refusal(&bytes, &table, line(kind, 3, 1, 0, 0)),
            (4, 5)
        );
        assert_eq!(
            append_refusal(&bytes, &table, line(kind, 3, 0, 0, 1)),
            (4, 5)
        );
    }
    assert_eq!(append_refusal(&bytes, &table, read(3, 2)), (4, 5));
    assert_eq!(append_refusal(&bytes, &table, write(3, 2, 0, 0)), (4, 5));
    // 6 before 7, 7 before 8.
    assert_eq!(append_refusal(&bytes, &table, write(1, 0, 0, 0)), (6, 5));
    assert_eq!(append_refusal(&bytes, &table, write(3, 0, 0, 0)), (7, 5));
    assert_eq!(append_refusal(&bytes, &table, write(3, 1, 0, 0)), (8, 5));
    // Each of them before 14: no room at all.
    for (new, expected) in [
        (read(3, 9), refused(4, 5)),
        (read(1, 0), refused(6, 5)),
        (read(3, 0), refused(7, 5)),
        (write(3, 1, 0, 0), refused(8, 5)),
        (read(3, 1), refused(14, 0)),
    ] {
        let mut by_kind = [2, 1, 1, 0];
        let answer = CALLS.append(
            &mut bytes.clone(),
            &mut table.clone(),
            &mut by_kind,
            new.kind,
            new.transaction,
            new.item,
            new.after,
        );
        assert_eq!(answer, expected);
    }
}

#[test]
fn a_written_before_comes_from_the_table() {
    let bytes = journal(2, &[read(1, 1)]);
    let (appended, table) = append(&bytes, &[5, 77], write(1, 1, 0, 78)).unwrap();
    assert_eq!(appended, journal(2, &[read(1, 1), write(1, 1, 77, 78)]));
    assert_eq!(table, [5, 78]);
    let (appended, table) = append(&appended, &table, write(1, 1, 0, 79)).unwrap();
    assert_eq!(table, [5, 79]);
    let (appended, table) = append(&appended, &table, abort(1)).unwrap();
    assert_eq!(table, [5, 77]);
    let lines = [
        read(1, 1),
        write(1, 1, 77, 78),
        write(1, 1, 78, 79),
        abort(1),
    ];
    assert_eq!(appended, journal(2, &lines));
}

#[test]
fn chain_of_numbers_outside() {
    for transaction in [0, 4, 1_024, 1_025, u16::MAX] {
        let mut lsns = [77; 20];
        assert_eq!(chain(&EXAMPLE, transaction, &mut lsns), refused(12, 0));
        assert_eq!(lsns, [77; 20]);
    }
    assert_eq!(chain(&EXAMPLE, 4, &mut []), refused(12, 0));
    assert_eq!(chain(&EXAMPLE, 1, &mut []), refused(14, 0));
}

#[test]
fn chain_leaves_out_the_table() {
    // No table is lent, so a final state cannot be wrong; 4 to 9 still count.
    let mut bytes = EXAMPLE;
    bytes[20 * 8 + 12] = 7;
    assert_eq!(chain(&bytes, 1, &mut [0; 5]), refused(9, 8));
    assert_eq!(check(&bytes, &EXAMPLE_TABLE), refused(9, 8));
    let mut bytes = EXAMPLE;
    bytes[20 * 9 + 16] = 7;
    assert_eq!(chain(&bytes, 1, &mut [0; 5]), Ok(5));
    assert_eq!(check(&bytes, &EXAMPLE_TABLE), refused(10, 2));
}

#[test]
fn undo_answers_bytes_and_the_program_records() {
    let repair = repair(&EXAMPLE, &EXAMPLE_TABLE, &[1]);
    assert_eq!(repair.answer.bytes, 80);
    let table = EXAMPLE_TABLE.map(i32::to_le_bytes).concat();
    let text = report(&EXAMPLE, &table, &[1, 0]);
    assert!(text.starts_with(b"JOURNAL 11 COPY 3\n"));
}

#[test]
fn lines_of_the_program() {
    let lines = [read(7, 0), write(7, 0, -5, -6), commit(7), abort(8)];
    let table = (-6i32).to_le_bytes();
    let text = b"JOURNAL 4 COPY 0\nBACK 7\nITEM 0 -6 -5\nSUM 0\nEND 0 1 1\n";
    let bytes = journal(1, &lines);
    assert_eq!(report(&bytes, &table, &[7, 0]), text);
    // The journal file is not cut to whole records.
    for length in [1, 19, 20, 33] {
        let mut longer = bytes.clone();
        longer.extend(vec![0xFF; length]);
        assert_eq!(report(&longer, &table, &[7, 0]), text);
    }
}

#[test]
fn head_only_undo_and_chain() {
    let bytes = journal(2, &[]);
    let repair = repair(&bytes, &[3, 4], &[]);
    assert_eq!(repair.answer, counts(0, 0, 0, 20));
    assert_eq!(repair.repaired, bytes);
    assert_eq!(repair.table, [3, 4]);
    for name in [0, 1, 1_024, u16::MAX] {
        let refusal = undo_refusal(&bytes, &[3, 4], &[name]);
        assert_eq!((refusal.number, refusal.place), (12, 0));
        assert_eq!(chain(&bytes, name, &mut [0]), refused(12, 0));
    }
}

#[test]
fn empty_list_drops_aborted() {
    let lines = [
        read(1, 0),
        write(1, 0, 4, 5),
        abort(1),
        read(2, 0),
        commit(2),
    ];
    let repair = repair(&journal(1, &lines), &[4], &[]);
    assert_eq!(repair.answer, counts(1, 0, 1, 60));
    assert_eq!(repair.table, [4]);
    assert_eq!(repair.repaired, journal(1, &[read(2, 0), commit(2)]));
    // Mark 0 for number 0 and for the rolled-back transaction.
    assert_eq!(repair.surviving, [2]);
    assert!(repair.undone.is_empty());
}

#[test]
fn append_knows_no_active_refusal() {
    let bytes = journal(1, &[read(1, 0), read(2, 0)]);
    assert!(append(&bytes, &[0], read(3, 0)).is_ok());
    assert!(append(&bytes, &[0], commit(1)).is_ok());
}

#[test]
fn counts_cannot_overflow() {
    let mut bytes = journal(1, &[]);
    bytes.extend([0; 20]);
    let mut by_kind = [u32::MAX, 0, 0, 0];
    let answer = CALLS.append(&mut bytes, &mut [0], &mut by_kind, 1, 1, 0, 0);
    assert_eq!(answer, refused(15, 0));
}

#[test]
fn place_of_unknown_has_any_size() {
    let mut bad = vec![1; 70_000];
    bad.push(9);
    let refusal = undo_refusal(&EXAMPLE, &EXAMPLE_TABLE, &bad);
    assert_eq!((refusal.number, refusal.place), (12, 70_000));
    bad.pop();
    assert_eq!(
        repair(&EXAMPLE, &EXAMPLE_TABLE, &bad).repaired,
        EXAMPLE_REPAIRED
    );
}

#[test]
fn own_and_aborted_reads() {
    // An own write feeds an own read and makes no dependence on the earlier writer.
    let lines = [
        read(1, 0),
        write(1, 0, 1, 2),
        read(1, 0),
        commit(1),
        read(2, 0),
        abort(2),
        read(3, 1),
        commit(3),
    ];
    let bytes = journal(2, &lines);
    assert_eq!(
        plain::removal(&bytes, &[]),
        [(1, None), (3, Some(2)), (5, Some(2)), (7, None)]
    );
    assert_eq!(plain::removal(&bytes, &[1]), [(5, None), (7, None)]);
    // The rolled-back reader is dropped, not undone.
    let repair = repair(&bytes, &[2, 0], &[1]);
    assert_eq!(repair.answer, counts(1, 1, 1, 60));
    assert_eq!(repair.undone, [1]);
}

#[test]
fn a_tainted_reader_without_writes_is_undone() {
    let lines = [
        read(1, 0),
        write(1, 0, 1, 2),
        write(1, 0, 2, 1),
        commit(1),
        read(2, 0),
        commit(2),
    ];
    let repair = repair(&journal(1, &lines), &[1], &[1]);
    assert_eq!(repair.undone, [1, 2]);
    // By the write and not by its value: the amount is the opening one.
    assert_eq!(repair.table, [1]);
}
