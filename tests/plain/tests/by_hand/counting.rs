//! The count of a stored journal: reads, writes, commits and rollbacks; refusals 1, 2, 1.

use crate::common::*;
use crate::CALLS;
use plain::compare::{count, Implementation, UNCOUNTED};

/// The four counts of an accepted call.
fn counted(journal: &[u8]) -> [u32; 4] {
    let answer = count(&CALLS, journal);
    assert_eq!(answer.answer, Ok(()));
    answer.counts
}

/// The number of a refused one; its place is 0, and nothing is written.
fn refusal(journal: &[u8]) -> u32 {
    let answer = count(&CALLS, journal);
    let refusal = answer.answer.unwrap_err();
    assert_eq!((refusal.place, answer.counts), (0, UNCOUNTED));
    refusal.number
}

#[test]
fn the_example_and_its_copy() {
    assert_eq!(counted(&EXAMPLE), [4, 4, 3, 0]);
    assert_eq!(counted(&EXAMPLE_REPAIRED), [1, 1, 1, 0]);
}

#[test]
fn a_head_alone() {
    let mut journal = [0xAA; 40];
    start(&mut journal, 1_024).unwrap();
    assert_eq!(counted(&journal), [0; 4]);
    assert_eq!(counted(&journal[..20]), [0; 4]);
}

#[test]
fn each_kind_in_its_place() {
    let lines = [
        abort(1),
        read(2, 0),
        abort(3),
        read(4, 0),
        abort(5),
        abort(6),
    ];
    assert_eq!(counted(&journal(1, &lines)), [2, 0, 0, 4]);
    for kind in 1..=4 {
        let mut expected = [0; 4];
        expected[kind as usize - 1] = 1;
        assert_eq!(counted(&journal(1, &[line(kind, 1, 0, 0, 0)])), expected);
    }
}

#[test]
fn no_record_is_checked() {
    // A blind write, a second commit, another open sale's item, fields outside the layout, wrong links.
    let mut bytes = journal(
        1,
        &[
            write(1, 9, 5, 6),
            commit(1),
            commit(1),
            read(0, 0),
            read(2, 0),
        ],
    );
    for record in 1..=5 {
        set4(&mut bytes, record, 4, 77);
        bytes[20 * record + 1] = 1;
    }
    assert_eq!(counted(&bytes), [2, 1, 2, 0]);
}

#[test]
fn other_kinds_count_nowhere() {
    for kind in (0..=255).filter(|kind| !(1..=4).contains(kind)) {
        let lines = [read(1, 0), line(kind, 1, 0, 0, 0), commit(1)];
        assert_eq!(counted(&journal(1, &lines)), [1, 0, 1, 0]);
    }
}

#[test]
fn bytes_behind_the_last_record_are_not_counted() {
    let mut bytes = EXAMPLE.to_vec();
    bytes.extend(&EXAMPLE[20..]);
    assert_eq!(counted(&bytes), [4, 4, 3, 0]);
}

#[test]
fn the_longest_journal() {
    let lines = vec![read(1, 0); 3_200];
    let full = journal(1, &lines);
    assert_eq!(counted(&full), [3_200, 0, 0, 0]);
    assert_eq!(refusal(&full[..64_019]), 1);
    let longer = journal(1, &vec![read(1, 0); 3_201]);
    assert_eq!(refusal(&longer), 2);
}

#[test]
fn refusals_in_order() {
    assert_eq!(refusal(&[]), 1);
    assert_eq!(refusal(&[0xFF; 19]), 1);
    assert_eq!(refusal(&[0xFF; 20]), 2);
    // Head before the whole length.
    let mut bytes = EXAMPLE;
    assert_eq!(refusal(&bytes[..239]), 1);
    bytes[0] = 1;
    assert_eq!(refusal(&bytes[..239]), 2);
    for at in (0..4).chain(12..20).chain([6, 7, 10, 11]) {
        let mut bytes = EXAMPLE;
        bytes[at] = 1;
        assert_eq!(refusal(&bytes), 2, "byte {at}");
    }
    for (items, expected) in [(0, Some(2)), (1, None), (1_024, None), (1_025, Some(2))] {
        let bytes = journal(items, &[]);
        assert_eq!(
            count(&CALLS, &bytes).answer.err().map(|r| r.number),
            expected
        );
    }
}

/// Document 01's example day, taken back and posted on: sale 4 takes 100 pence from item 0.
#[test]
fn posting_on_after_the_example() {
    let left = repair(&EXAMPLE, &EXAMPLE_TABLE, &[1]);
    let (mut journal, mut table) = (left.repaired, left.table);
    journal.resize(140, 0xAA);
    let mut by_kind = counted(&journal);
    for (kind, after) in [(1, 0), (2, 400), (3, 0)] {
        let answer = CALLS.append(&mut journal, &mut table, &mut by_kind, kind, 4, 0, after);
        assert_eq!(answer, Ok(()));
    }
    assert_eq!(table, [400, 0, 1180]);
    assert_eq!(by_kind, [2, 2, 2, 0]);
    assert_eq!(counted(&journal), by_kind);
    assert_eq!(check(&journal, &table), Ok(0));
}
