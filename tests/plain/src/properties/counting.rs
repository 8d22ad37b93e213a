//! The count of a stored journal, and posting on with it.

use super::history::History;
use crate::compare::{count, repair, CountAnswer, Implementation, UNCOUNTED};
use crate::days::{day, undo_sequence, UndoSequence};
use crate::format::{ABORT, COMMIT, READ, WRITE};
use crate::Refusal;

/// What the bytes alone say: 1, 2, 1, or the first byte of each record that the head counts.
fn by_bytes(journal: &[u8]) -> Result<[u32; 4], u32> {
    let head = journal.get(..20).ok_or(1u32)?;
    let number = |at: usize| u32::from_le_bytes([0, 1, 2, 3].map(|byte| head[at + byte]));
    let zero = (0..4).chain(12..20).all(|at| head[at] == 0);
    if !zero || number(4) > 3_200 || number(8) == 0 || number(8) > 1_024 {
        return Err(2);
    }
    let end = 20 * (number(4) as usize + 1);
    let mut counts = [0; 4];
    for record in journal.get(20..end).ok_or(1u32)?.chunks(20) {
        if let READ..=ABORT = record[0] {
            counts[record[0] as usize - 1] += 1;
        }
    }
    Ok(counts)
}

/// A journal with a right head and the length that it asks for is counted, whatever its records hold:
/// each kind by itself, other kinds and bytes behind the last record nowhere. Every other one is
/// refused, and then nothing is written.
pub fn counts_are_those_of_the_kinds(calls: &impl Implementation, seed: u64) -> u64 {
    let expected = match by_bytes(&day(seed).journal) {
        Ok(counts) => CountAnswer {
            answer: Ok(()),
            counts,
        },
        Err(number) => CountAnswer {
            answer: Err(Refusal { number, place: 0 }),
            counts: UNCOUNTED,
        },
    };
    assert_eq!(count(calls, &day(seed).journal), expected);
    1
}

/// Copy and table that a take-back leaves can be posted on with the copy's count: a sale more is
/// accepted and passes. With another count post refuses. A case is a take-back.
pub fn posting_goes_on_after_a_take_back(calls: &impl Implementation, seed: u64) -> u64 {
    let UndoSequence {
        journal,
        table,
        calls: lists,
    } = undo_sequence(seed);
    let commits = History::of(&journal).commits();
    let mut tried = 0;
    for mut bad in lists.into_iter().map(|call| call.bad) {
        bad.retain(|name| commits.contains(name));
        let left = repair(calls, &journal, &table, &bad);
        let (mut journal, mut table) = (left.repaired, left.table);
        let counted = count(calls, &journal);
        assert_eq!(counted.answer, Ok(()));
        assert_eq!(counted.counts, History::of(&journal).counts());

        journal.extend([0xAA; 60]);
        assert_eq!(count(calls, &journal), counted);
        let sale = (1..=1_024).find(|t| !left.surviving.contains(t)).unwrap();
        for kind in 0..4 {
            let mut other = counted.counts;
            other[kind] += 1;
            let answer = calls.append(&mut journal, &mut table, &mut other, READ, sale, 0, 0);
            let tally = Refusal {
                number: 15,
                place: 0,
            };
            assert_eq!(answer, Err(tally));
        }
        let mut counts = counted.counts;
        for (kind, after) in [(READ, 0), (WRITE, -7), (COMMIT, 0)] {
            let answer = calls.append(&mut journal, &mut table, &mut counts, kind, sale, 0, after);
            assert_eq!(answer, Ok(()));
            assert_eq!(count(calls, &journal).counts, counts);
        }
        assert_eq!(calls.check(&journal, &table), Ok(0));
        assert_eq!(table[0], -7);
        tried += 1;
    }
    tried
}
