//! Each field of head and records, each refusal by hand, and days at the limits of the layout.

use crate::common::*;
use crate::{report, CALLS};
use plain::compare::Implementation;

#[test]
fn full_journal_of_1024_transactions() {
    // 1,024 transactions of three or four records, 3,200 records in all. Each write adds a penny.
    let mut lines = Vec::new();
    let mut amount = 0;
    for transaction in 1..=1_024 {
        lines.push(read(transaction, 0));
        for _ in 0..if transaction <= 128 { 2 } else { 1 } {
            lines.push(write(transaction, 0, amount, amount + 1));
            amount += 1;
        }
        lines.push(commit(transaction));
    }
    assert_eq!((lines.len(), amount), (3_200, 1_152));
    let full = journal(1, &lines);
    assert_eq!(check(&full, &[1_152]), Ok(0));
    let all = repair(&full, &[1_152], &[1]);
    assert_eq!(all.answer, counts(0, 1_024, 0, 20));
    assert_eq!(all.table, [0]);
    let last = repair(&full, &[1_152], &[1_024]);
    assert_eq!(last.answer, counts(1_023, 1, 0, 20 * 3_198));
    assert_eq!(last.table, [1_151]);
    let none = repair(&full, &[1_152], &[]);
    assert_eq!(none.answer, counts(1_024, 0, 0, 64_020));
    assert_eq!(none.repaired, full);
}

#[test]
fn kinds() {
    for (kind, expected) in [
        (0, refused(4, 1)),
        (1, Ok(1)),
        (2, refused(8, 1)),
        (3, Ok(0)),
        (4, Ok(0)),
        (5, refused(4, 1)),
        (255, refused(4, 1)),
    ] {
        let bytes = journal(1, &[line(kind, 1, 0, 0, 0)]);
        assert_eq!(check(&bytes, &[0]), expected);
    }
    let head = journal(1, &[]);
    for kind in [0, 5, 255] {
        assert_eq!(append_refusal(&head, &[0], line(kind, 1, 0, 0, 0)), (4, 1));
    }
    assert_eq!(append_refusal(&head, &[0], line(2, 1, 0, 0, 0)), (8, 1));
    for kind in [1, 3, 4] {
        assert!(append(&head, &[0], line(kind, 1, 0, 0, 0)).is_ok());
    }
}

#[test]
fn every_byte_of_the_head() {
    for at in (0..4).chain(12..20) {
        for value in [1, 128, 255] {
            let mut bytes = EXAMPLE;
            bytes[at] = value;
            assert_eq!(check(&bytes, &EXAMPLE_TABLE), refused(2, 0), "byte {at}");
        }
    }
    for at in [6, 7, 10, 11] {
        let mut bytes = EXAMPLE;
        bytes[at] = 1;
        assert_eq!(check(&bytes, &EXAMPLE_TABLE), refused(2, 0), "byte {at}");
    }
}

#[test]
fn every_byte_that_the_layout_fixes() {
    for i in 1..=11 {
        let kind = EXAMPLE[20 * i];
        let fixed: Vec<usize> = match kind {
            1 => (1..2).chain(12..20).collect(),
            2 => vec![1],
            _ => (1..2).chain(8..20).collect(),
        };
        for at in fixed {
            let mut bytes = EXAMPLE;
            bytes[20 * i + at] = 1;
            assert_eq!(check(&bytes, &EXAMPLE_TABLE), refused(4, i as u64));
        }
    }
}

#[test]
fn every_byte_of_next() {
    for i in 1..=11 {
        for at in 4..8 {
            let mut bytes = EXAMPLE;
            bytes[20 * i + at] ^= 1;
            assert_eq!(check(&bytes, &EXAMPLE_TABLE), refused(5, i as u64));
        }
    }
}

#[test]
fn extreme_amounts() {
    for amount in [i32::MIN, -32_769, -32_768, 32_767, 32_768, i32::MAX] {
        let opposite = !amount;
        let lines = [read(1, 0), write(1, 0, opposite, amount), commit(1)];
        let bytes = journal(1, &lines);
        assert_eq!(check(&bytes, &[amount]), Ok(0));
        assert_eq!(check(&bytes, &[amount.wrapping_add(1)]), refused(10, 0));
        assert_eq!(repair(&bytes, &[amount], &[1]).table, [opposite]);
        let (appended, table) = append(
            &journal(1, &[read(1, 0)]),
            &[opposite],
            write(1, 0, 0, amount),
        )
        .unwrap();
        assert_eq!(table, [amount]);
        assert_eq!(appended, journal(1, &lines[..2]));
        let (_, back) = append(&appended, &table, abort(1)).unwrap();
        assert_eq!(back, [opposite]);
    }
    let lines = [read(1, 0), write(1, 0, i32::MAX, i32::MIN), commit(1)];
    assert_eq!(
        report(&journal(1, &lines), &i32::MIN.to_le_bytes(), &[1, 0]),
        b"JOURNAL 3 COPY 0\nBACK 1\nITEM 0 -2147483648 2147483647\nSUM 0\nEND 0 1 0\n"
    );
}

#[test]
fn lists_of_record_numbers() {
    for length in 0..7 {
        let mut lsns = vec![77; length];
        let answer = chain(&EXAMPLE, 1, &mut lsns);
        if length < 5 {
            assert_eq!(answer, refused(14, 0));
            assert!(lsns.iter().all(|&lsn| lsn == 77));
        } else {
            assert_eq!(answer, Ok(5));
            assert_eq!(lsns[..5], [1, 2, 3, 4, 5]);
            assert!(lsns[5..].iter().all(|&lsn| lsn == 77));
        }
    }
}

#[test]
fn room_behind_the_journal() {
    for (room, expected) in [
        (0, refused(14, 0)),
        (19, refused(14, 0)),
        (20, Ok(())),
        (21, Ok(())),
        (55, Ok(())),
    ] {
        let mut bytes = EXAMPLE.to_vec();
        bytes.extend(vec![0xAA; room]);
        let mut table = EXAMPLE_TABLE;
        let mut by_kind = [4, 4, 3, 0];
        let lent = bytes.clone();
        let answer = CALLS.append(&mut bytes, &mut table, &mut by_kind, 4, 4, 0, 0);
        assert_eq!(answer, expected);
        assert_eq!(table, EXAMPLE_TABLE);
        if expected.is_ok() {
            assert_eq!(bytes[4], 12);
            assert_eq!(bytes[20..240], EXAMPLE[20..]);
            assert_eq!(bytes[240..260], journal(1, &[abort(4)])[20..]);
            assert!(bytes[260..].iter().all(|&b| b == 0xAA));
            assert_eq!(by_kind, [4, 4, 3, 1]);
        } else {
            assert_eq!(bytes, lent);
            assert_eq!(by_kind, [4, 4, 3, 0]);
        }
    }
}

#[test]
fn records_3199_and_3200_in_append() {
    let mut lines = vec![read(1, 0), read(2, 1), write(2, 1, 5, 6), commit(3)];
    lines.resize(3_199, read(1, 0));
    let bytes = journal(2, &lines);
    let (full, table) = append(&bytes, &[0, 6], read(1, 0)).unwrap();
    assert_eq!(full[4..8], 3_200u32.to_le_bytes());
    assert_eq!(check(&full, &table), Ok(2));
    assert_eq!(append_refusal(&full, &table, read(1, 0)), (14, 0));
    assert_eq!(
        append_refusal(&full, &table, line(0, 1, 0, 0, 0)),
        (4, 3_201)
    );
    assert_eq!(append_refusal(&full, &table, read(3, 0)), (6, 3_201));
    assert_eq!(append_refusal(&full, &table, read(1, 1)), (7, 3_201));
    assert_eq!(append_refusal(&full, &table, write(2, 0, 0, 0)), (7, 3_201));
    let blind = write(4, 0, 0, 0);
    assert_eq!(append_refusal(&full, &table, blind), (7, 3_201));
    let mut by_kind = counts_of(&full);
    by_kind[0] += 1;
    let answer = CALLS.append(
        &mut full.clone(),
        &mut table.clone(),
        &mut by_kind,
        0,
        1,
        0,
        0,
    );
    assert_eq!(answer, refused(15, 0));
}

#[test]
fn blind_append_to_a_full_journal() {
    let full = journal(2, &vec![read(1, 0); 3_200]);
    assert_eq!(
        append_refusal(&full, &[0, 0], write(1, 1, 0, 0)),
        (8, 3_201)
    );
}

#[test]
fn the_program_reads_64020_bytes() {
    // Journal: what lies behind 64,020 bytes does not matter, nor does a list entry there.
    let mut lines = vec![read(1, 0); 3_199];
    lines.push(commit(1));
    let mut bytes = journal(1, &lines);
    bytes.extend([0xAA; 100]);
    let mut bad = vec![];
    for _ in 0..32_010 {
        bad.extend([1, 0]);
    }
    let text = b"JOURNAL 3200 COPY 0\nBACK 1\nSUM 0\nEND 0 1 0\n";
    assert_eq!(report(&bytes, &[0; 4], &bad), text);
    bad.extend([9, 0]);
    assert_eq!(report(&bytes, &[0; 4], &bad), text);
    bad[64_018] = 9;
    assert_eq!(report(&bytes, &[0; 4], &bad), b"REFUSED 12 32009\n");
    assert_eq!(report(&bytes, &[0; 64_024], &bad), b"REFUSED 3 0\n");
}

#[test]
fn every_refusal_of_4_to_9_by_hand() {
    let table = [0, 0];
    let cases = [
        (journal(2, &[line(9, 1, 0, 0, 0)]), (4, 1)),
        (
            {
                let mut bytes = journal(2, &[read(1, 0), commit(1)]);
                set4(&mut bytes, 1, 4, 0);
                bytes
            },
            (5, 1),
        ),
        (journal(2, &[commit(1), commit(1)]), (6, 2)),
        (journal(2, &[abort(1), read(1, 0)]), (6, 2)),
        (
            journal(2, &[read(1, 0), write(1, 0, 0, 0), read(2, 0)]),
            (7, 3),
        ),
        (
            journal(2, &[read(1, 0), read(2, 0), write(1, 0, 0, 0)]),
            (7, 3),
        ),
        (journal(2, &[read(1, 0), write(1, 1, 0, 0)]), (8, 2)),
        (
            journal(2, &[read(1, 0), write(1, 0, 0, 1), write(1, 0, 0, 0)]),
            (9, 3),
        ),
    ];
    for (bytes, (number, place)) in cases {
        assert_eq!(check(&bytes, &table), refused(number, place));
        assert_eq!(chain(&bytes, 1, &mut [0; 9]), refused(number, place));
        let refusal = undo_refusal(&bytes, &table, &[]);
        assert_eq!((refusal.number, refusal.place), (number, place));
    }
}

#[test]
fn lowest_number_at_one_record() {
    // Record 5 breaks 6, 7, 8 and 9 at once; each repair shows the next number.
    let others = [read(1, 0), write(1, 0, 0, 1), read(2, 1), abort(3)];
    let with = |last: Line| {
        let mut lines = others.to_vec();
        lines.push(last);
        journal(3, &lines)
    };
    let table = [1, 0, 0];
    let mut both = with(write(3, 0, 7, 1));
    set4(&mut both, 5, 4, 9);
    both[101] = 1;
    assert_eq!(check(&both, &table), refused(4, 5));
    both[101] = 0;
    assert_eq!(check(&both, &table), refused(5, 5));
    set4(&mut both, 5, 4, 0);
    assert_eq!(check(&both, &table), refused(6, 5));
    assert_eq!(check(&with(write(2, 0, 7, 1)), &table), refused(7, 5));
    let mut blind = vec![read(1, 0), write(1, 0, 0, 1), commit(1)];
    blind.push(write(2, 0, 7, 1));
    assert_eq!(check(&journal(3, &blind), &table), refused(8, 4));
    blind.insert(3, read(2, 0));
    assert_eq!(check(&journal(3, &blind), &table), refused(9, 5));
    blind[4] = write(2, 0, 1, 4);
    assert_eq!(check(&journal(3, &blind), &table), refused(10, 0));
    assert_eq!(check(&journal(3, &blind), &[4, 0, 0]), Ok(1));
}

#[test]
fn final_state_gives_the_lowest_item() {
    let lines = [read(1, 2), write(1, 2, 0, 5), read(1, 1), write(1, 1, 0, 6)];
    let bytes = journal(4, &lines);
    assert_eq!(check(&bytes, &[9, 6, 5, 9]), Ok(1));
    assert_eq!(check(&bytes, &[9, 7, 4, 9]), refused(10, 1));
    assert_eq!(check(&bytes, &[9, 6, 4, 9]), refused(10, 2));
}

#[test]
fn active_gives_the_lowest_number() {
    let lines = [read(9, 0), read(5, 0), read(3, 0), commit(3), read(7, 0)];
    let bytes = journal(1, &lines);
    assert_eq!(check(&bytes, &[0]), Ok(3));
    let refusal = undo_refusal(&bytes, &[0], &[99]);
    assert_eq!((refusal.number, refusal.place), (11, 5));
}

/// All calls take any bytes and lengths; here every length of noise and of a cut example.
#[test]
fn any_bytes_are_answered() {
    for length in 0..=240 {
        let expected = if length < 240 { refused(1, 0) } else { Ok(0) };
        assert_eq!(check(&EXAMPLE[..length], &EXAMPLE_TABLE), expected);
        for value in [0, 1, 2, 3, 4, 255] {
            let mut journal = vec![value; length];
            assert!(check(&journal, &[0]).is_err());
            let answer = CALLS.undo(&journal, &mut [0], &[1], &mut [0; 1_025], &mut [0; 99]);
            assert!(answer.is_err());
            let answer = CALLS.append(&mut journal, &mut [], &mut [0; 4], 9, 9, 9, 9);
            assert!(answer.is_err());
        }
    }
}
