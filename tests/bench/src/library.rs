//! The proved calls through their Rust binding (`bindings/rust`), with the types of the linear version.

use journal::{Counts, Item, Transaction};
use plain::{Refusal, Undone};

pub fn check(journal: &[u8], table: &[i32]) -> Result<u32, Refusal> {
    journal::check(journal, table).map_err(refusal)
}

pub fn undo(
    journal: &[u8],
    table: &mut [i32],
    bad: &[u16],
    status: &mut [u8],
    out: &mut [u8],
) -> Result<Undone, Refusal> {
    let bad = Transaction::list(bad);
    let totals = journal::undo(journal, table, bad, status, out).map_err(refusal)?;
    Ok(Undone {
        surviving: totals.surviving,
        undone: totals.undone,
        aborted: totals.aborted,
        bytes: totals.bytes as u64,
    })
}

pub fn append(
    journal: &mut [u8],
    table: &mut [i32],
    counts: &mut [u32; 4],
    kind: u8,
    transaction: u16,
    item: u32,
    after: i32,
) -> Result<(), Refusal> {
    let [reads, writes, commits, aborts] = *counts;
    let mut now = Counts {
        reads,
        writes,
        commits,
        aborts,
    };
    let (transaction, item) = (Transaction(transaction), Item(item));
    let answer = journal::append(journal, table, &mut now, kind, transaction, item, after);
    *counts = [now.reads, now.writes, now.commits, now.aborts];
    answer.map_err(refusal)
}

fn refusal(refusal: journal::Refusal) -> Refusal {
    Refusal {
        number: refusal.number,
        place: refusal.place.number(),
    }
}
