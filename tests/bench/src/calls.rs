//! The calls that are measured, made on a day by either side.

use crate::days::Day;
use crate::{library, linear};
use plain::format::STATUS_BYTES;
use plain::{Refusal, Undone};

#[derive(Debug, Clone, Copy, PartialEq, Eq)]
pub enum Call {
    Check,
    /// Undo with an empty bad list: all records are copied.
    UndoNone,
    /// Undo with the day's bad list.
    UndoBad,
    /// Append of the day's last record.
    Append,
}

pub const CALLS: [Call; 4] = [Call::Check, Call::UndoNone, Call::UndoBad, Call::Append];

impl Call {
    pub fn name(self) -> &'static str {
        match self {
            Call::Check => "check",
            Call::UndoNone => "undo, empty list",
            Call::UndoBad => "undo, bad list",
            Call::Append => "append",
        }
    }
}

#[derive(Debug, Clone, Copy, PartialEq, Eq)]
pub enum Side {
    Proved,
    Linear,
}

pub const SIDES: [Side; 2] = [Side::Proved, Side::Linear];

/// The functions that a count of instructions is taken of; each is entered once a call.
pub const COUNTED: [&str; 6] = [
    "journal_check",
    "journal_undo",
    "journal_append",
    "linear_check",
    "linear_undo",
    "linear_append",
];

#[no_mangle]
#[inline(never)]
fn linear_check(journal: &[u8], table: &[i32]) -> Result<u32, Refusal> {
    linear::check(journal, table)
}

#[no_mangle]
#[inline(never)]
fn linear_undo(
    journal: &[u8],
    table: &mut [i32],
    bad: &[u16],
    status: &mut [u8],
    out: &mut [u8],
) -> Result<Undone, Refusal> {
    linear::undo(journal, table, bad, status, out)
}

#[no_mangle]
#[inline(never)]
fn linear_append(
    journal: &mut [u8],
    table: &mut [i32],
    counts: &mut [u32; 4],
    kind: u8,
    transaction: u16,
    item: u32,
    after: i32,
) -> Result<(), Refusal> {
    linear::append(journal, table, counts, kind, transaction, item, after)
}

/// What a call answers.
#[derive(Debug, Clone, Copy, PartialEq, Eq)]
pub enum Answer {
    Active(u32),
    Undone(Undone),
    Appended,
}

/// The buffers that are lent to be written.
#[derive(Debug, Clone, PartialEq, Eq)]
pub struct Lent {
    journal: Vec<u8>,
    table: Vec<i32>,
    counts: [u32; 4],
    status: Vec<u8>,
    out: Vec<u8>,
}

impl Lent {
    /// For calls on days of this many bytes.
    pub fn new(bytes: usize) -> Lent {
        Lent {
            journal: Vec::with_capacity(bytes),
            table: Vec::new(),
            counts: [0; 4],
            status: vec![0xA5; STATUS_BYTES],
            out: vec![0xA5; bytes],
        }
    }

    /// The loans as the call finds them; check lends nothing to be written. Status and out are
    /// only written, so they stay as they are.
    pub fn restore(&mut self, call: Call, day: &Day) {
        match call {
            Call::Check => {}
            Call::UndoNone | Call::UndoBad => self.table.clone_from(&day.table),
            Call::Append => {
                self.journal.clone_from(&day.before_last.journal);
                self.table.clone_from(&day.before_last.table);
                self.counts = day.before_last.counts;
            }
        }
    }

    #[inline]
    pub fn make(&mut self, call: Call, side: Side, day: &Day) -> Result<Answer, Refusal> {
        match call {
            Call::Check => self.check(side, day),
            Call::UndoNone => self.undo(side, day, &[]),
            Call::UndoBad => self.undo(side, day, &day.bad),
            Call::Append => self.append(side, day),
        }
    }

    fn check(&mut self, side: Side, day: &Day) -> Result<Answer, Refusal> {
        let check = match side {
            Side::Proved => library::check,
            Side::Linear => linear_check,
        };
        check(&day.journal, &day.table).map(Answer::Active)
    }

    fn undo(&mut self, side: Side, day: &Day, bad: &[u16]) -> Result<Answer, Refusal> {
        let undo = match side {
            Side::Proved => library::undo,
            Side::Linear => linear_undo,
        };
        let (table, status, out) = (&mut self.table, &mut self.status, &mut self.out);
        undo(&day.journal, table, bad, status, out).map(Answer::Undone)
    }

    fn append(&mut self, side: Side, day: &Day) -> Result<Answer, Refusal> {
        let append = match side {
            Side::Proved => library::append,
            Side::Linear => linear_append,
        };
        let new = &day.before_last.append;
        append(
            &mut self.journal,
            &mut self.table,
            &mut self.counts,
            new.kind,
            new.transaction,
            new.item,
            new.after,
        )
        .map(|()| Answer::Appended)
    }
}

/// Both sides accept each call on this day, with the same answer and the same loans afterwards.
pub fn compare(day: &Day) {
    for call in CALLS {
        let [proved, linear] = SIDES.map(|side| {
            let mut lent = Lent::new(day.journal.len());
            lent.restore(call, day);
            let answer = lent.make(call, side, day);
            (answer, lent)
        });
        assert!(proved.0.is_ok(), "{call:?}: {:?}", proved.0);
        assert!(proved == linear, "{call:?} differs");
    }
}
