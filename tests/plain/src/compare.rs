//! One implementation's answers over one day, with every loan as the call left it. Two
//! implementations agree on a day exactly if their `Answers` are equal.

use crate::days::{Appends, Day, UndoSequence};
use crate::{Refusal, Undone};

/// The calls of one implementation.
pub trait Implementation {
    fn start(&self, journal: &mut [u8], items: u32) -> Result<(), Refusal>;

    #[allow(clippy::too_many_arguments)]
    fn append(
        &self,
        journal: &mut [u8],
        table: &mut [i32],
        counts: &mut [u32; 4],
        kind: u8,
        transaction: u16,
        item: u32,
        after: i32,
    ) -> Result<(), Refusal>;

    fn check(&self, journal: &[u8], table: &[i32]) -> Result<u32, Refusal>;

    fn chain(&self, journal: &[u8], transaction: u16, lsns: &mut [u32]) -> Result<u32, Refusal>;

    fn undo(
        &self,
        journal: &[u8],
        table: &mut [i32],
        bad: &[u16],
        status: &mut [u8],
        out: &mut [u8],
    ) -> Result<Undone, Refusal>;

    fn count_records(&self, journal: &[u8], counts: &mut [u32; 4]) -> Result<(), Refusal>;

    fn report(&self, journal: &[u8], table: &[u8], bad: &[u8]) -> Vec<u8>;
}

/// This crate's calls.
pub struct Plain;

impl Implementation for Plain {
    fn start(&self, journal: &mut [u8], items: u32) -> Result<(), Refusal> {
        crate::start(journal, items)
    }

    fn append(
        &self,
        journal: &mut [u8],
        table: &mut [i32],
        counts: &mut [u32; 4],
        kind: u8,
        transaction: u16,
        item: u32,
        after: i32,
    ) -> Result<(), Refusal> {
        crate::append(journal, table, counts, kind, transaction, item, after)
    }

    fn check(&self, journal: &[u8], table: &[i32]) -> Result<u32, Refusal> {
        crate::check(journal, table)
    }

    fn chain(&self, journal: &[u8], transaction: u16, lsns: &mut [u32]) -> Result<u32, Refusal> {
        crate::chain(journal, transaction, lsns)
    }

    fn undo(
        &self,
        journal: &[u8],
        table: &mut [i32],
        bad: &[u16],
        status: &mut [u8],
        out: &mut [u8],
    ) -> Result<Undone, Refusal> {
        crate::undo(journal, table, bad, status, out)
    }

    fn count_records(&self, journal: &[u8], counts: &mut [u32; 4]) -> Result<(), Refusal> {
        crate::count_records(journal, counts)
    }

    fn report(&self, journal: &[u8], table: &[u8], bad: &[u8]) -> Vec<u8> {
        crate::report(journal, table, bad)
    }
}

/// Start's answer and loan.
#[derive(Debug, Clone, PartialEq, Eq)]
pub struct StartAnswer {
    pub answer: Result<(), Refusal>,
    pub journal: Vec<u8>,
}

/// Append's answer and loans (01: post).
#[derive(Debug, Clone, PartialEq, Eq)]
pub struct AppendAnswer {
    pub answer: Result<(), Refusal>,
    pub journal: Vec<u8>,
    pub table: Vec<i32>,
    pub counts: [u32; 4],
}

/// The chain walk's answer and loan (01: slip).
#[derive(Debug, Clone, PartialEq, Eq)]
pub struct ChainAnswer {
    pub answer: Result<u32, Refusal>,
    pub lsns: Vec<u32>,
}

/// Undo's answer and loans (01: take-back).
#[derive(Debug, Clone, PartialEq, Eq)]
pub struct UndoAnswer {
    pub answer: Result<Undone, Refusal>,
    pub table: Vec<i32>,
    pub status: Vec<u8>,
    pub out: Vec<u8>,
}

/// The answer of the count of a stored journal, and its loan.
#[derive(Debug, Clone, Copy, PartialEq, Eq)]
pub struct CountAnswer {
    pub answer: Result<(), Refusal>,
    pub counts: [u32; 4],
}

/// All answers over one day.
#[derive(Debug, Clone, PartialEq, Eq)]
pub struct Answers {
    pub start: StartAnswer,
    pub append: AppendAnswer,
    pub check: Result<u32, Refusal>,
    pub chain: ChainAnswer,
    pub undo: UndoAnswer,
    pub count: CountAnswer,
    pub report: Vec<u8>,
}

/// Makes every call on a fresh copy of the day's loans.
pub fn answers(calls: &impl Implementation, day: &Day) -> Answers {
    Answers {
        start: start(calls, day),
        append: append(calls, day),
        check: calls.check(&day.journal, &day.table),
        chain: chain(calls, day),
        undo: undo(calls, day),
        count: count(calls, &day.journal),
        report: calls.report(&day.journal, &day.table_file, &day.bad_file),
    }
}

fn start(calls: &impl Implementation, day: &Day) -> StartAnswer {
    let mut journal = day.fresh.clone();
    StartAnswer {
        answer: calls.start(&mut journal, day.items),
        journal,
    }
}

fn append(calls: &impl Implementation, day: &Day) -> AppendAnswer {
    let mut journal = day.journal.clone();
    let mut table = day.table.clone();
    let mut counts = day.counts;
    let new = &day.append;
    AppendAnswer {
        answer: calls.append(
            &mut journal,
            &mut table,
            &mut counts,
            new.kind,
            new.transaction,
            new.item,
            new.after,
        ),
        journal,
        table,
        counts,
    }
}

fn chain(calls: &impl Implementation, day: &Day) -> ChainAnswer {
    let mut lsns = day.lsns.clone();
    ChainAnswer {
        answer: calls.chain(&day.journal, day.chain_of, &mut lsns),
        lsns,
    }
}

fn undo(calls: &impl Implementation, day: &Day) -> UndoAnswer {
    let mut table = day.table.clone();
    let mut status = day.status.clone();
    let mut out = day.out.clone();
    UndoAnswer {
        answer: calls.undo(&day.journal, &mut table, &day.bad, &mut status, &mut out),
        table,
        status,
        out,
    }
}

/// What is lent to be counted into: no count of a journal.
pub const UNCOUNTED: [u32; 4] = [0xAAAA_AAAA, 0xAAAA_AAAB, 0xAAAA_AAAC, 0xAAAA_AAAD];

/// The count of this journal.
pub fn count(calls: &impl Implementation, journal: &[u8]) -> CountAnswer {
    let mut counts = UNCOUNTED;
    CountAnswer {
        answer: calls.count_records(journal, &mut counts),
        counts,
    }
}

/// Starts a journal and makes each append in turn on what the one before left. Answers each
/// step with its loans; the first is start's.
pub fn appends_in_turn(calls: &impl Implementation, appends: &Appends) -> Vec<AppendAnswer> {
    let mut journal = appends.journal.clone();
    let mut table = appends.initial.clone();
    let mut counts = [0; 4];
    let mut answer = calls.start(&mut journal, table.len() as u32);
    let mut steps = Vec::new();
    let mut keep = |answer, journal: &[u8], table: &[i32], counts| {
        steps.push(AppendAnswer {
            answer,
            journal: journal.to_vec(),
            table: table.to_vec(),
            counts,
        });
    };
    keep(answer, &journal, &table, counts);
    for new in &appends.appends {
        answer = calls.append(
            &mut journal,
            &mut table,
            &mut counts,
            new.kind,
            new.transaction,
            new.item,
            new.after,
        );
        keep(answer, &journal, &table, counts);
    }
    steps
}

/// One call of an incremental repair (01: cut list): the list as struck, and what came back.
#[derive(Debug, Clone, PartialEq, Eq)]
pub struct UndoStep {
    pub bad: Vec<u16>,
    pub answer: UndoAnswer,
}

/// Incremental repair: each call gets the repaired journal, exactly its bytes, and the table that
/// the last accepted call left. Names already undone are struck from its list.
pub fn undos_in_turn(calls: &impl Implementation, sequence: &UndoSequence) -> Vec<UndoStep> {
    let mut journal = sequence.journal.clone();
    let mut table = sequence.table.clone();
    let mut undone = Vec::new();
    let mut steps = Vec::new();
    for call in &sequence.calls {
        let mut bad = call.bad.clone();
        bad.retain(|transaction| !undone.contains(transaction));
        let mut status = call.status.clone();
        let mut out = call.out.clone();
        let answer = calls.undo(&journal, &mut table, &bad, &mut status, &mut out);
        if let Ok(accepted) = answer {
            journal = out[..accepted.bytes as usize].to_vec();
            undone.extend((0..=1_024).filter(|&t: &u16| status[t as usize] == 2));
        }
        let table = table.clone();
        steps.push(UndoStep {
            bad,
            answer: UndoAnswer {
                answer,
                table,
                status,
                out,
            },
        });
    }
    steps
}

/// An accepted undo: the answer, the table left, the numbers marked 2 and those marked 1, and
/// the repaired journal.
pub struct Repair {
    pub answer: Undone,
    pub table: Vec<i32>,
    pub undone: Vec<u16>,
    pub surviving: Vec<u16>,
    pub repaired: Vec<u8>,
}

/// An undo that is accepted, with a status vector and output buffer that fit. Nothing behind the
/// repaired journal was written, and the marks are 0, 1 and 2.
pub fn repair(calls: &impl Implementation, journal: &[u8], table: &[i32], bad: &[u16]) -> Repair {
    let mut table = table.to_vec();
    let mut status = [0xAA; 1_025];
    let mut out = vec![0xAA; journal.len() + 20];
    let answer = calls.undo(journal, &mut table, bad, &mut status, &mut out);
    let answer = answer.unwrap();
    let bytes = answer.bytes as usize;
    assert!(out[bytes..].iter().all(|&b| b == 0xAA));
    assert!(status.iter().all(|&state| state <= 2));
    let with_state = |state: u8| {
        (0..1_025u16)
            .filter(|&t| status[t as usize] == state)
            .collect()
    };
    out.truncate(bytes);
    Repair {
        answer,
        table,
        undone: with_state(2),
        surviving: with_state(1),
        repaired: out,
    }
}
