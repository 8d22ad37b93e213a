//! Incremental repair (01: cut lists): a sequence of undo calls against one call.

use super::history::History;
use crate::compare::{repair, undos_in_turn, Implementation, UndoStep};
use crate::days::{undo_sequence, Random, UndoCall, UndoSequence};

/// The lists of the accepted calls joined, struck names included, each number once.
fn joined(sequence: &UndoSequence, steps: &[UndoStep]) -> Vec<u16> {
    let mut names = Vec::new();
    for (call, step) in sequence.calls.iter().zip(steps) {
        if step.answer.answer.is_ok() {
            names.extend(&call.bad);
        }
    }
    names.sort();
    names.dedup();
    names
}

/// A refused call passes on the table that it got.
fn refused_calls_pass_on(sequence: &UndoSequence, steps: &[UndoStep]) {
    let mut table = &sequence.table;
    for step in steps {
        if step.answer.answer.is_err() {
            assert_eq!(&step.answer.table, table);
        }
        table = &step.answer.table;
    }
}

/// At every call of a sequence a list is accepted exactly if it names only committed transactions
/// of what the call got, the status vector has 1,025 bytes and the output buffer holds the copy.
fn each_call_accepts_as_it_must(
    calls: &impl Implementation,
    sequence: &UndoSequence,
    steps: &[UndoStep],
) {
    let (mut journal, mut table) = (sequence.journal.clone(), sequence.table.clone());
    for (call, step) in sequence.calls.iter().zip(steps) {
        let commits = History::of(&journal).commits();
        let fits = call.status.len() == 1_025 && step.bad.iter().all(|name| commits.contains(name));
        let copy = || repair(calls, &journal, &table, &step.bad).repaired.len();
        let accepts = fits && call.out.len() >= copy();
        assert_eq!(step.answer.answer.is_ok(), accepts);
        if let Ok(answer) = step.answer.answer {
            journal = step.answer.out[..answer.bytes as usize].to_vec();
            table.clone_from(&step.answer.table);
        }
    }
}

/// Compares a sequence of undo calls with one call; answers how many calls were accepted.
pub fn compare_with_one_call(calls: &impl Implementation, sequence: &UndoSequence) -> usize {
    let steps = undos_in_turn(calls, sequence);
    refused_calls_pass_on(sequence, &steps);
    each_call_accepts_as_it_must(calls, sequence, &steps);
    let accepted: Vec<&UndoStep> = steps
        .iter()
        .filter(|step| step.answer.answer.is_ok())
        .collect();
    let Some(last) = accepted.last() else {
        return 0;
    };
    let names = joined(sequence, &steps);
    let one = repair(calls, &sequence.journal, &sequence.table, &names);
    let mut undone: Vec<u16> = Vec::new();
    let (mut undone_count, mut aborted_count) = (0, 0);
    for step in &accepted {
        let status = &step.answer.status;
        undone.extend((0..1_025u16).filter(|&t| status[t as usize] == 2));
        let answer = step.answer.answer.unwrap();
        undone_count += answer.undone;
        aborted_count += answer.aborted;
    }
    undone.sort();
    // Equal without removing repeats: each is marked by just one call.
    assert_eq!(undone, one.undone);
    let answer = last.answer.answer.unwrap();
    assert_eq!(last.answer.table, one.table);
    assert_eq!(last.answer.out[..answer.bytes as usize], one.repaired);
    assert_eq!(answer.surviving, one.answer.surviving);
    assert_eq!(undone_count, one.answer.undone);
    assert_eq!(aborted_count, one.answer.aborted);
    accepted.len()
}

/// Any sequence, refused calls included. A case is a sequence with an accepted call.
pub fn incremental_repair_equals_one_call(calls: &impl Implementation, seed: u64) -> u64 {
    let accepted = compare_with_one_call(calls, &undo_sequence(seed));
    u64::from(accepted > 0)
}

/// A list of committed names, in any order and with repeats, cut in every way into parts given
/// in turn: all are accepted, and come to what the whole list comes to. A case is a cut.
pub fn every_cut_equals_the_list(calls: &impl Implementation, seed: u64) -> u64 {
    let mut sequence = undo_sequence(seed);
    let commits = History::of(&sequence.journal).commits();
    if commits.is_empty() {
        return 0;
    }
    let random = &mut Random::new(seed);
    let length = random.between(1, 5);
    let list: Vec<u16> = (0..length).map(|_| random.pick(&commits)).collect();
    let cuts = 1 << (length - 1);
    for cut in 0..cuts {
        sequence.calls = parts(&list, cut).into_iter().map(undo_call).collect();
        let accepted = compare_with_one_call(calls, &sequence);
        assert_eq!(accepted, sequence.calls.len());
    }
    cuts
}

/// The list cut behind each position whose bit is set.
fn parts(list: &[u16], cut: u64) -> Vec<Vec<u16>> {
    let mut parts = vec![Vec::new()];
    for (i, &name) in list.iter().enumerate() {
        parts.last_mut().unwrap().push(name);
        if cut >> i & 1 == 1 {
            parts.push(Vec::new());
        }
    }
    parts
}

fn undo_call(bad: Vec<u16>) -> UndoCall {
    UndoCall {
        bad,
        status: vec![0xAA; 1_025],
        out: vec![0xAA; 20 * 100],
    }
}
