//! Both sides of each number of document 01, asked of every call that it bears on.

use crate::common::*;
use crate::{report, CALLS};
use plain::compare::Implementation;
use plain::{Refusal, Undone};

/// The answer of an append with these counts, with no room but the journal's own bytes.
fn append_within(bytes: &[u8], table: &[i32], by_kind: [u32; 4], new: Line) -> Result<(), Refusal> {
    let (mut journal, mut left, mut counts) = (bytes.to_vec(), table.to_vec(), by_kind);
    let answer = CALLS.append(
        &mut journal,
        &mut left,
        &mut counts,
        new.kind,
        new.transaction,
        new.item,
        new.after,
    );
    if answer.is_err() {
        assert_eq!((&journal[..], &left[..], counts), (bytes, table, by_kind));
    }
    answer
}

/// The answer of an undo with a status vector and output buffer of these lengths.
fn undo_with(
    journal: &[u8],
    table: &[i32],
    bad: &[u16],
    (status, out): (usize, usize),
) -> Result<Undone, Refusal> {
    let mut left = table.to_vec();
    let mut status = vec![0xAA; status];
    let mut out = vec![0xAA; out];
    let answer = CALLS.undo(journal, &mut left, bad, &mut status, &mut out);
    if answer.is_err() {
        assert_eq!(left, table);
        assert!(status.iter().chain(&out).all(|&b| b == 0xAA));
    }
    answer
}

/// The same with lengths that fit.
fn undo(journal: &[u8], table: &[i32], bad: &[u16]) -> Result<Undone, Refusal> {
    undo_with(journal, table, bad, (1_025, 64_020))
}

/// Check, append, the chain walk and undo all refuse the journal so.
fn all_refuse(journal: &[u8], table: &[i32], number: u32, place: u64) {
    assert_eq!(check(journal, table), refused(number, place));
    let answer = append_within(journal, table, [0; 4], read(1, 0));
    assert_eq!(answer, refused(number, place));
    assert_eq!(chain(journal, 1, &mut []), refused(number, place));
    assert_eq!(undo(journal, table, &[]), refused(number, place));
}

/// Reads and at last a commit by transaction 1,024, so many records in all.
fn long(records: usize) -> Vec<u8> {
    let mut lines = vec![read(1_024, 1_023); records - 1];
    lines.push(commit(1_024));
    journal(1_024, &lines)
}

#[test]
fn bytes_19_and_20() {
    let head = journal(1, &[]);
    for length in [0, 1, 19] {
        all_refuse(&head[..length], &[0], 1, 0);
        for items in [0, 1, 1_025] {
            assert_eq!(start(&mut head[..length].to_vec(), items), refused(1, 0));
        }
    }
    assert_eq!(check(&head, &[0]), Ok(0));
    let answer = append_within(&head, &[0], [0; 4], read(1, 0));
    assert_eq!(answer, refused(14, 0));
    assert_eq!(chain(&head, 1, &mut []), refused(12, 0));
    assert_eq!(undo(&head, &[0], &[]), Ok(counts(0, 0, 0, 20)));
    assert_eq!(report(&head[..19], &[0; 4], &[]), b"REFUSED 1 0\n");
    assert_eq!(
        report(&head, &[0; 4], &[]),
        b"JOURNAL 0 COPY 0\nSUM 0\nEND 0 0 0\n"
    );
    for length in [20, 21, 64_020, 64_021] {
        let mut bytes = vec![0xAA; length];
        assert_eq!(start(&mut bytes, 1_024), Ok(()));
        assert_eq!(bytes[..20], journal(1_024, &[]));
        assert!(bytes[20..].iter().all(|&b| b == 0xAA));
    }
}

#[test]
fn whole_length_less_one() {
    for (bytes, table) in [
        (EXAMPLE.to_vec(), EXAMPLE_TABLE.to_vec()),
        (long(3_200), vec![7; 1_024]),
    ] {
        for length in [20, bytes.len() - 20, bytes.len() - 1] {
            all_refuse(&bytes[..length], &table, 1, 0);
        }
        assert_eq!(check(&bytes, &table), Ok(0));
        assert!(undo(&bytes, &table, &[]).is_ok());
    }
}

#[test]
fn records_3200_and_3201() {
    let table = [7; 1_024];
    let last = long(3_200);
    assert_eq!(last.len(), 64_020);
    assert_eq!(check(&last, &table), Ok(0));
    assert_eq!(undo(&last, &table, &[]), Ok(counts(1, 0, 0, 64_020)));
    assert_eq!(undo(&last, &table, &[1_024]), Ok(counts(0, 1, 0, 20)));
    assert_eq!(
        report(&last, &vec![7; 4 * 1_024], &[0, 4]),
        b"JOURNAL 3200 COPY 0\nBACK 1024\nSUM 0\nEND 0 1 0\n"
    );
    all_refuse(&long(3_201), &table, 2, 0);
    all_refuse(&long(3_201)[..20], &table, 2, 0);
    let mut claimed = last;
    set4(&mut claimed, 0, 4, u32::MAX);
    all_refuse(&claimed, &table, 2, 0);
}

#[test]
fn append_of_record_3200_and_3201() {
    let table = [7; 1_024];
    for (records, room, expected) in [
        (3_199, 0, refused(14, 0)),
        (3_199, 19, refused(14, 0)),
        (3_199, 20, Ok(())),
        (3_200, 20, refused(14, 0)),
        (3_200, 5_000, refused(14, 0)),
    ] {
        let mut bytes = long(records);
        bytes.extend(vec![0xAA; room]);
        let by_kind = [records as u32 - 1, 0, 1, 0];
        let answer = append_within(&bytes, &table, by_kind, read(1, 0));
        assert_eq!(answer, expected);
        let answer = append_within(&bytes, &table, by_kind, read(0, 0));
        assert_eq!(answer, refused(4, records as u64 + 1));
    }
}

#[test]
fn chain_of_3200_records() {
    let bytes = long(3_200);
    for length in [0, 3_199, 3_200, 3_201] {
        let mut lsns = vec![0xAAAA_AAAA; length];
        let answer = chain(&bytes, 1_024, &mut lsns);
        let written = if length < 3_200 { 0 } else { 3_200 };
        if length < 3_200 {
            assert_eq!(answer, refused(14, 0));
        } else {
            assert_eq!(answer, Ok(3_200));
        }
        assert!(lsns[..written].iter().copied().eq(1..=written as u32));
        assert!(lsns[written..].iter().all(|&lsn| lsn == 0xAAAA_AAAA));
    }
    // From the first record straight to the last.
    let mut lines = vec![read(2, 0); 3_200];
    lines[0] = read(1, 0);
    lines[3_199] = commit(1);
    let mut bytes = journal(1, &lines);
    let mut lsns = [0; 2];
    assert_eq!(chain(&bytes, 1, &mut lsns), Ok(2));
    assert_eq!(lsns, [1, 3_200]);
    assert_eq!(check(&bytes, &[0]), Ok(1));
    for next in [0, 3_199, 3_201, 65_536 + 3_200, u32::MAX] {
        set4(&mut bytes, 1, 4, next);
        all_refuse(&bytes, &[0], 5, 1);
    }
}

#[test]
fn items_0_1_1024_and_1025() {
    for (items, accepted) in [
        (0, false),
        (1, true),
        (1_024, true),
        (1_025, false),
        (65_537, false),
        (u32::MAX, false),
    ] {
        let head = journal(items, &[]);
        let table = vec![0; items.min(2_000) as usize];
        let mut fresh = [0xAA; 20];
        if accepted {
            assert_eq!(start(&mut fresh, items), Ok(()));
            assert_eq!(fresh[..], head);
            assert_eq!(check(&head, &table), Ok(0));
            assert!(append(&head, &table, read(1, items - 1)).is_ok());
            assert_eq!(append_refusal(&head, &table, read(1, items)), (4, 1));
            assert_eq!(undo(&head, &table, &[]), Ok(counts(0, 0, 0, 20)));
        } else {
            assert_eq!(start(&mut fresh, items), refused(2, 0));
            assert_eq!(fresh, [0xAA; 20]);
            all_refuse(&head, &table, 2, 0);
        }
    }
}

#[test]
fn item_1023_and_1024() {
    let table = [0; 1_024];
    let inside = [read(1, 1_023), write(1, 1_023, 0, 5), commit(1)];
    let bytes = journal(1_024, &inside);
    let mut written = table;
    written[1_023] = 5;
    assert_eq!(check(&bytes, &written), Ok(0));
    assert_eq!(undo(&bytes, &written, &[1]), Ok(counts(0, 1, 0, 20)));
    // The place of 10 is an item.
    assert_eq!(check(&bytes, &table), refused(10, 1_023));
    assert_eq!(undo(&bytes, &table, &[1]), refused(10, 1_023));
    let answer = append_within(&bytes, &table, [1, 1, 1, 0], read(2, 0));
    assert_eq!(answer, refused(10, 1_023));
    for outside in [1_024, 65_536, u32::MAX] {
        all_refuse(&journal(1_024, &[read(1, outside)]), &table, 4, 1);
        let lines = [read(1, 0), write(1, outside, 0, 5)];
        all_refuse(&journal(1_024, &lines), &table, 4, 2);
        let open = journal(1_024, &lines[..1]);
        let answer = append_refusal(&open, &table, write(1, outside, 0, 5));
        assert_eq!(answer, (4, 2));
    }
}

#[test]
fn transactions_0_1_1024_and_1025() {
    for transaction in [0, 1_025, u16::MAX] {
        all_refuse(&journal(1, &[read(transaction, 0)]), &[0], 4, 1);
        let head = journal(1, &[]);
        assert_eq!(append_refusal(&head, &[0], read(transaction, 0)), (4, 1));
        assert_eq!(chain(&EXAMPLE, transaction, &mut [0; 9]), refused(12, 0));
        let answer = undo(&EXAMPLE, &EXAMPLE_TABLE, &[1, transaction]);
        assert_eq!(answer, refused(12, 1));
    }
    for transaction in [1, 1_024] {
        let open = journal(1, &[read(transaction, 0)]);
        assert_eq!(check(&open, &[0]), Ok(1));
        // The place of 11 is a transaction.
        assert_eq!(undo(&open, &[0], &[]), refused(11, transaction.into()));
        let (done, table) = append(&open, &[0], commit(transaction)).unwrap();
        assert_eq!(chain(&done, transaction, &mut [0; 2]), Ok(2));
        let repair = repair(&done, &table, &[transaction, transaction]);
        assert_eq!(repair.undone, [transaction]);
        assert_eq!(repair.answer, counts(0, 1, 0, 20));
    }
}

#[test]
fn table_lengths_around_the_item_count() {
    for (bytes, items) in [
        (journal(1, &[]), 1),
        (EXAMPLE.to_vec(), 3),
        (long(3_200), 1_024),
    ] {
        for length in [0, items - 1, items + 1, 2 * items] {
            let table = vec![0; length];
            assert_eq!(check(&bytes, &table), refused(3, 0));
            assert_eq!(undo(&bytes, &table, &[]), refused(3, 0));
            let answer = append_within(&bytes, &table, counts_of(&bytes), read(1, 0));
            assert_eq!(answer, refused(3, 0));
        }
    }
}

#[test]
fn status_of_1024_1025_and_1026_bytes() {
    for (status, out, bad, expected) in [
        (0, 80, &[1][..], refused(13, 0)),
        (1_024, 80, &[1], refused(13, 0)),
        (1_025, 80, &[1], Ok(counts(1, 2, 0, 80))),
        (1_026, 80, &[1], refused(13, 0)),
        (2_050, 80, &[1], refused(13, 0)),
        (1_024, 0, &[4], refused(13, 0)),
        (1_025, 0, &[1, 4], refused(12, 1)),
    ] {
        let answer = undo_with(&EXAMPLE, &EXAMPLE_TABLE, bad, (status, out));
        assert_eq!(answer, expected);
    }
}

#[test]
fn output_around_the_copy() {
    let full = long(3_200);
    let table = [7; 1_024];
    for (bytes, table, bad, copy) in [
        (&EXAMPLE[..], &EXAMPLE_TABLE[..], &[1][..], 80),
        (&EXAMPLE, &EXAMPLE_TABLE, &[], 240),
        (&EXAMPLE, &EXAMPLE_TABLE, &[1, 2, 3], 20),
        (&full, &table, &[], 64_020),
        (&full, &table, &[1_024], 20),
    ] {
        for out in [0, copy - 1] {
            let answer = undo_with(bytes, table, bad, (1_025, out));
            assert_eq!(answer, refused(14, 0));
        }
        for out in [copy, copy + 1] {
            let answer = undo_with(bytes, table, bad, (1_025, out)).unwrap();
            assert_eq!(answer.bytes, copy as u64);
        }
    }
}

#[test]
fn lists_of_any_length() {
    for length in [0, 1, 255, 256, 32_010, 32_011, 65_535, 65_536, 65_537] {
        let mut bad = vec![3; length];
        let answer = undo(&EXAMPLE, &EXAMPLE_TABLE, &bad).unwrap();
        assert_eq!(answer.undone, u32::from(length > 0));
        bad.push(4);
        let answer = undo(&EXAMPLE, &EXAMPLE_TABLE, &bad);
        assert_eq!(answer, refused(12, length as u64));
    }
}

#[test]
fn counts_at_their_ends() {
    let mut room = EXAMPLE.to_vec();
    room.extend([0xAA; 20]);
    let right = counts_of(&EXAMPLE);
    for kind in 0..4 {
        let near = [right[kind].wrapping_sub(1), right[kind] + 1];
        let far = [0, right[kind] + 65_536, u32::MAX];
        for value in near.into_iter().chain(far) {
            let mut wrong = right;
            wrong[kind] = value;
            if wrong == right {
                continue;
            }
            // Before a fault of the new record, and before the want of room.
            for new in [read(4, 0), read(0, 0)] {
                let answer = append_within(&room, &EXAMPLE_TABLE, wrong, new);
                assert_eq!(answer, refused(15, 0));
                let answer = append_within(&EXAMPLE, &EXAMPLE_TABLE, wrong, new);
                assert_eq!(answer, refused(15, 0));
            }
            // Behind a fault of the table.
            let answer = append_within(&room, &[320, 0, 0], wrong, read(4, 0));
            assert_eq!(answer, refused(10, 2));
        }
    }
    // A count rises up to 3,200.
    let reads = journal(1, &vec![read(1, 0); 3_199]);
    let (bytes, _) = append(&reads, &[7], read(1, 0)).unwrap();
    assert_eq!(counts_of(&bytes), [3_200, 0, 0, 0]);
}
