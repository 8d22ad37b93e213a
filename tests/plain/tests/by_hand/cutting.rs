//! Cut lists by hand.

use crate::common::*;
use crate::CALLS;
use plain::compare::undos_in_turn;
use plain::days::{UndoCall, UndoSequence};
use plain::properties::cutting::compare_with_one_call;

fn undo_call(bad: &[u16]) -> UndoCall {
    UndoCall {
        bad: bad.to_vec(),
        status: vec![0xAA; 1_025],
        out: vec![0xAA; 240],
    }
}

fn of_the_example(lists: &[&[u16]]) -> UndoSequence {
    UndoSequence {
        journal: EXAMPLE.to_vec(),
        table: EXAMPLE_TABLE.to_vec(),
        calls: lists.iter().map(|bad| undo_call(bad)).collect(),
    }
}

/// The example's list 1, 2, 3 cut: the second call gets 2 struck; position of 12 in the struck
/// list.
#[test]
fn incremental_repair_of_the_example() {
    let sequence = of_the_example(&[&[4], &[1], &[2, 1, 3, 4], &[2, 3]]);
    let steps = undos_in_turn(&CALLS, &sequence);
    assert_eq!(steps[0].answer.answer, refused(12, 0));
    assert_eq!(steps[1].answer.answer, Ok(counts(1, 2, 0, 80)));
    assert_eq!(steps[2].bad, [3, 4]);
    assert_eq!(steps[2].answer.answer, refused(12, 1));
    assert_eq!(steps[3].bad, [3]);
    assert_eq!(steps[3].answer.answer, Ok(counts(0, 1, 0, 20)));
    assert_eq!(steps[3].answer.table, [500, 0, 1000]);
    assert_eq!(compare_with_one_call(&CALLS, &sequence), 2);
}

#[test]
fn incremental_repair_without_calls() {
    assert_eq!(compare_with_one_call(&CALLS, &of_the_example(&[])), 0);
}

/// Dropped counts come with the first accepted call only.
#[test]
fn incremental_repair_drops_aborted_once() {
    let lists: [&[u16]; 3] = [&[], &[1], &[3]];
    let sequence = UndoSequence {
        journal: journal(1, &[commit(1), abort(2), commit(3)]),
        table: vec![0],
        calls: lists.map(undo_call).to_vec(),
    };
    let steps = undos_in_turn(&CALLS, &sequence);
    let aborted = steps.iter().map(|step| step.answer.answer.unwrap().aborted);
    assert!(aborted.eq([1, 0, 0]));
    assert_eq!(compare_with_one_call(&CALLS, &sequence), 3);
}
