//! "Days to try" of document 01, with values written by hand.

use crate::common::*;
use crate::{report, CALLS};
use plain::compare::Implementation;

const TABLE_FILE: [u8; 12] = [0x40, 0x01, 0, 0, 0, 0, 0, 0, 0x9C, 0x04, 0, 0];

#[test]
fn example_passes() {
    assert_eq!(check(&EXAMPLE, &EXAMPLE_TABLE), Ok(0));
}

#[test]
fn record_2_has_the_bytes_of_the_document() {
    let hexadecimal = "02 00 01 00 03 00 00 00 00 00 00 00 F4 01 00 00 40 01 00 00";
    let bytes: Vec<u8> = hexadecimal
        .split(' ')
        .map(|byte| u8::from_str_radix(byte, 16).unwrap())
        .collect();
    assert_eq!(EXAMPLE[40..60], bytes);
}

#[test]
fn example_from_its_words() {
    let lines = [
        read(1, 0),
        write(1, 0, 500, 320),
        read(1, 1),
        write(1, 1, 0, 1),
        commit(1),
        read(2, 1),
        read(3, 2),
        write(2, 1, 1, 0),
        write(3, 2, 1000, 1180),
        commit(2),
        commit(3),
    ];
    assert_eq!(journal(3, &lines), EXAMPLE);
}

#[test]
fn example_with_list_1() {
    let repair = repair(&EXAMPLE, &EXAMPLE_TABLE, &[1]);
    assert_eq!(repair.answer, counts(1, 2, 0, 80));
    assert_eq!(repair.undone, [1, 2]);
    assert_eq!(repair.surviving, [3]);
    assert_eq!(repair.table, [500, 0, 1180]);
    assert_eq!(repair.repaired, EXAMPLE_REPAIRED);
}

#[test]
fn example_with_list_3() {
    let repair = repair(&EXAMPLE, &EXAMPLE_TABLE, &[3]);
    assert_eq!(repair.answer, counts(2, 1, 0, 180));
    assert_eq!(repair.undone, [3]);
    assert_eq!(repair.table, [320, 0, 1000]);
    let lines = [
        read(1, 0),
        write(1, 0, 500, 320),
        read(1, 1),
        write(1, 1, 0, 1),
        commit(1),
        read(2, 1),
        write(2, 1, 1, 0),
        commit(2),
    ];
    assert_eq!(repair.repaired, journal(3, &lines));
}

#[test]
fn example_with_empty_list() {
    let repair = repair(&EXAMPLE, &EXAMPLE_TABLE, &[]);
    assert_eq!(repair.answer, counts(3, 0, 0, 240));
    assert_eq!(repair.table, EXAMPLE_TABLE);
    assert_eq!(repair.repaired, EXAMPLE);
}

#[test]
fn example_printed() {
    let text = "JOURNAL 11 COPY 3\nBACK 1\nBACK 2\nITEM 0 320 500\nSUM 180\nEND 1 2 0\n";
    assert_eq!(report(&EXAMPLE, &TABLE_FILE, &[1, 0]), text.as_bytes());
}

#[test]
fn example_printed_with_other_lists() {
    let printed = |bad: &[u8]| String::from_utf8(report(&EXAMPLE, &TABLE_FILE, bad)).unwrap();
    assert_eq!(
        printed(&[3, 0]),
        "JOURNAL 11 COPY 8\nBACK 3\nITEM 2 1180 1000\nSUM -180\nEND 2 1 0\n"
    );
    assert_eq!(
        printed(&[2, 0]),
        "JOURNAL 11 COPY 8\nBACK 2\nITEM 1 0 1\nSUM 1\nEND 2 1 0\n"
    );
    assert_eq!(printed(&[]), "JOURNAL 11 COPY 11\nSUM 0\nEND 3 0 0\n");
    // Nothing is left.
    assert_eq!(
        printed(&[3, 0, 1, 0]),
        "JOURNAL 11 COPY 0\nBACK 1\nBACK 2\nBACK 3\nITEM 0 320 500\nITEM 2 1180 1000\nSUM 0\nEND 0 3 0\n"
    );
    assert_eq!(printed(&[3, 0, 4, 0]), "REFUSED 12 1\n");
    assert_eq!(
        printed(&[3, 0, 4]),
        "JOURNAL 11 COPY 8\nBACK 3\nITEM 2 1180 1000\nSUM -180\nEND 2 1 0\n"
    );
}

/// What a copy does not have does not count: writes taken back, and writes rolled back.
#[test]
fn sum_of_a_copy_without_writes() {
    let lines = [
        read(1, 0),
        write(1, 0, 500, 320),
        commit(1),
        read(2, 1),
        write(2, 1, 7, 9),
        abort(2),
        read(3, 1),
        commit(3),
    ];
    let table = [320i32, 7].map(i32::to_le_bytes).concat();
    assert_eq!(
        report(&journal(2, &lines), &table, &[1, 0]),
        b"JOURNAL 8 COPY 2\nBACK 1\nITEM 0 320 500\nSUM 0\nEND 1 1 1\n"
    );
    assert_eq!(
        report(&journal(2, &lines), &table, &[]),
        b"JOURNAL 8 COPY 5\nSUM -180\nEND 2 0 1\n"
    );
    assert_eq!(
        report(&journal(2, &lines[6..]), &table, &[]),
        b"JOURNAL 2 COPY 2\nSUM 0\nEND 1 0 0\n"
    );
}

/// Each sale takes an item of its own from one end of the amounts to the other.
fn printed_from_end_to_end(sales: u16, before: i32, after: i32) -> String {
    let mut lines = vec![];
    for sale in 1..=sales {
        let item = u32::from(sale) - 1;
        lines.extend([read(sale, item), write(sale, item, before, after)]);
        lines.push(commit(sale));
    }
    let bytes = journal(u32::from(sales), &lines);
    let table = after.to_le_bytes().repeat(usize::from(sales));
    String::from_utf8(report(&bytes, &table, &[])).unwrap()
}

#[test]
fn sum_from_end_to_end() {
    const LOWEST: i32 = -2_147_483_648;
    const HIGHEST: i32 = 2_147_483_647;
    assert_eq!(
        printed_from_end_to_end(1, LOWEST, HIGHEST),
        "JOURNAL 3 COPY 3\nSUM 4294967295\nEND 1 0 0\n"
    );
    assert_eq!(
        printed_from_end_to_end(1, HIGHEST, LOWEST),
        "JOURNAL 3 COPY 3\nSUM -4294967295\nEND 1 0 0\n"
    );
    // 1,024 times as much.
    assert_eq!(
        printed_from_end_to_end(1_024, LOWEST, HIGHEST),
        "JOURNAL 3072 COPY 3072\nSUM 4398046510080\nEND 1024 0 0\n"
    );
    assert_eq!(
        printed_from_end_to_end(1_024, HIGHEST, LOWEST),
        "JOURNAL 3072 COPY 3072\nSUM -4398046510080\nEND 1024 0 0\n"
    );
}

#[test]
fn missing_files_are_empty() {
    assert_eq!(report(&[], &TABLE_FILE, &[1, 0]), b"REFUSED 1 0\n");
    assert_eq!(report(&EXAMPLE, &[], &[1, 0]), b"REFUSED 3 0\n");
    assert_eq!(
        report(&EXAMPLE, &TABLE_FILE, &[]),
        b"JOURNAL 11 COPY 11\nSUM 0\nEND 3 0 0\n"
    );
}

#[test]
fn files_end_in_part_of_an_entry() {
    for more in 1..4 {
        let mut table = TABLE_FILE.to_vec();
        table.extend(vec![0xFF; more]);
        let mut bad = vec![1, 0];
        bad.push(0xFF);
        let text = b"JOURNAL 11 COPY 3\nBACK 1\nBACK 2\nITEM 0 320 500\nSUM 180\nEND 1 2 0\n";
        assert_eq!(report(&EXAMPLE, &table, &bad), text);
    }
    assert_eq!(
        report(&EXAMPLE, &TABLE_FILE[..11], &[1, 0]),
        b"REFUSED 3 0\n"
    );
}

#[test]
fn head_only() {
    let mut journal = [0xAA; 20];
    assert_eq!(start(&mut journal, 3), Ok(()));
    let mut head = [0; 20];
    head[8] = 3;
    assert_eq!(journal, head);
    assert_eq!(check(&journal, &[1, 2, 3]), Ok(0));
}

#[test]
fn repeated_and_unknown_numbers() {
    let once = repair(&EXAMPLE, &EXAMPLE_TABLE, &[1]);
    let twice = repair(&EXAMPLE, &EXAMPLE_TABLE, &[1, 1]);
    assert_eq!(once.answer, twice.answer);
    assert_eq!(once.undone, twice.undone);
    assert_eq!(once.surviving, twice.surviving);
    assert_eq!(once.table, twice.table);
    assert_eq!(once.repaired, twice.repaired);
    let refusal = undo_refusal(&EXAMPLE, &EXAMPLE_TABLE, &[4]);
    assert_eq!((refusal.number, refusal.place), (12, 0));
}

#[test]
fn writes_first_and_reads_from_bad_later() {
    let lines = [
        read(1, 0),
        write(1, 0, 5, 6),
        commit(1),
        read(2, 2),
        write(2, 2, 70, 71),
        read(2, 0),
        commit(2),
    ];
    let repair = repair(&journal(3, &lines), &[6, 9, 71], &[1]);
    assert_eq!(repair.undone, [1, 2]);
    assert_eq!(repair.table, [5, 9, 70]);
    assert_eq!(repair.answer, counts(0, 2, 0, 20));
}

#[test]
fn aborted_write_is_read_by_no_other() {
    // Transaction 2 writes over 1's item and rolls back; 3 then reads what 1 wrote.
    let lines = [
        read(1, 0),
        write(1, 0, 5, 6),
        commit(1),
        read(2, 0),
        write(2, 0, 6, 9),
        abort(2),
        read(3, 0),
        commit(3),
    ];
    let bytes = journal(1, &lines);
    assert_eq!(
        plain::removal(&bytes, &[]),
        [(1, None), (4, Some(2)), (7, Some(2))]
    );
    let bad = repair(&bytes, &[6], &[1]);
    assert_eq!(bad.undone, [1, 3]);
    assert_eq!(bad.answer, counts(0, 2, 1, 20));
    assert_eq!(bad.table, [5]);
    // Without transaction 1 nobody else's write feeds 3.
    let lines = [
        read(2, 0),
        write(2, 0, 6, 9),
        abort(2),
        read(3, 0),
        commit(3),
    ];
    assert_eq!(
        plain::removal(&journal(1, &lines), &[]),
        [(1, None), (4, None)]
    );
}

#[test]
fn blind_write() {
    let lines = [read(1, 0), write(1, 1, 0, 1), commit(1)];
    assert_eq!(check(&journal(2, &lines), &[0, 1]), refused(8, 2));
}

#[test]
fn output_of_79_and_80_bytes() {
    for length in [0, 19, 20, 79, 80, 81] {
        let mut table = EXAMPLE_TABLE;
        let mut status = [0xAA; 1_025];
        let mut out = vec![0xAA; length];
        let answer = CALLS.undo(&EXAMPLE, &mut table, &[1], &mut status, &mut out);
        if length < 80 {
            assert_eq!(answer, refused(14, 0));
            assert_eq!(table, EXAMPLE_TABLE);
            assert!(status.iter().chain(&out).all(|&b| b == 0xAA));
        } else {
            assert_eq!(answer, Ok(counts(1, 2, 0, 80)));
            assert_eq!(out[..80], EXAMPLE_REPAIRED);
            assert!(out[80..].iter().all(|&b| b == 0xAA));
        }
    }
}

#[test]
fn chains_of_the_example() {
    for (transaction, expected) in [
        (1, &[1, 2, 3, 4, 5][..]),
        (2, &[6, 8, 10]),
        (3, &[7, 9, 11]),
    ] {
        let mut lsns = [77; 7];
        let visited = chain(&EXAMPLE, transaction, &mut lsns);
        assert_eq!(visited, Ok(expected.len() as u32));
        assert_eq!(lsns[..expected.len()], *expected);
        assert!(lsns[expected.len()..].iter().all(|&lsn| lsn == 77));
    }
}

#[test]
fn example_appended() {
    let mut bytes = [0xAA; 240];
    let mut table = [500, 0, 1000];
    let mut by_kind = [0; 4];
    start(&mut bytes, 3).unwrap();
    let appends = [
        (1, 1, 0, 0),
        (2, 1, 0, 320),
        (1, 1, 1, 0),
        (2, 1, 1, 1),
        (3, 1, 0, 0),
        (1, 2, 1, 0),
        (1, 3, 2, 0),
        (2, 2, 1, 0),
        (2, 3, 2, 1180),
        (3, 2, 0, 0),
        (3, 3, 0, 0),
    ];
    for (kind, transaction, item, after) in appends {
        let answer = CALLS.append(
            &mut bytes,
            &mut table,
            &mut by_kind,
            kind,
            transaction,
            item,
            after,
        );
        assert_eq!(answer, Ok(()));
    }
    assert_eq!(bytes, EXAMPLE);
    assert_eq!(table, EXAMPLE_TABLE);
    assert_eq!(by_kind, [4, 4, 3, 0]);
}
