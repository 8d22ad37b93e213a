//! Take-back: selective undo by the delete-transaction model.

use crate::append::put;
use crate::format::*;
use crate::projection::{committed_before, reads_from};
use crate::refusal::*;
use crate::validate::{active_at, validate};

/// Status byte of a number without a committed transaction.
pub const NOT_COMMITTED: u8 = 0;
/// Status byte of a surviving transaction (01: kept).
pub const SURVIVING: u8 = 1;
/// Status byte of an undone transaction (01: taken back).
pub const UNDONE: u8 = 2;

/// The answer of take-back: kept, taken-back and dropped counts, and the copy's bytes.
#[derive(Debug, Clone, Copy, PartialEq, Eq)]
pub struct Undone {
    pub surviving: u32,
    pub undone: u32,
    pub aborted: u32,
    pub bytes: u64,
}

/// Take-back: undoes the transactions of the bad list and all that read from them. Writes the
/// table, the status vector (01: marks) and the front of `out` (01: paper) that the repaired
/// journal (01: copy) fills.
pub fn undo(
    journal: &[u8],
    table: &mut [i32],
    bad: &[u16],
    status: &mut [u8],
    out: &mut [u8],
) -> Result<Undone, Refusal> {
    let records = validate(journal, table)?;
    if let Some(lowest) = active_at(&records, records.len()).iter().position(|&a| a) {
        return refuse(ACTIVE_AT_END, lowest);
    }
    if status.len() != STATUS_BYTES {
        return refuse(STATUS_LENGTH, 0);
    }
    if let Some(position) = bad.iter().position(|&t| !is_committed(&records, t)) {
        return refuse(UNKNOWN, position);
    }
    let new_status = status_of(&records, &undo_set(&records, bad));
    let repaired = repaired_journal(&records, &new_status);
    if out.len() < RECORD_BYTES * repaired.len() {
        return refuse(OUTPUT_LENGTH, 0);
    }
    table.copy_from_slice(&repaired_table(&records, table, &new_status));
    status.copy_from_slice(&new_status);
    for (i, record) in repaired.iter().enumerate() {
        put(out, i, record);
    }
    Ok(Undone {
        surviving: new_status.iter().filter(|&&s| s == SURVIVING).count() as u32,
        undone: new_status.iter().filter(|&&s| s == UNDONE).count() as u32,
        aborted: records[1..].iter().filter(|r| r.is_abort()).count() as u32,
        bytes: (RECORD_BYTES * repaired.len()) as u64,
    })
}

/// The journal has a commit of the transaction.
fn is_committed(records: &[Record], transaction: u16) -> bool {
    committed_before(records, transaction, records.len())
}

/// The taken-back set: the least set of committed transactions that contains the bad list and
/// every committed transaction with a read fed by a write of a member. Starts from the list and
/// adds such transactions until there is none to add.
fn undo_set(records: &[Record], bad: &[u16]) -> Vec<bool> {
    let dependencies = dependencies(records);
    let mut member = vec![false; STATUS_BYTES];
    for &transaction in bad {
        member[transaction as usize] = true;
    }
    loop {
        let found = dependencies
            .iter()
            .find(|&&(reader, writer)| member[writer as usize] && !member[reader as usize]);
        match found {
            Some(&(reader, _)) => member[reader as usize] = true,
            None => return member,
        }
    }
}

/// Each committed reader with the transaction whose write feeds one of its reads.
fn dependencies(records: &[Record]) -> Vec<(u16, u16)> {
    let mut pairs = Vec::new();
    for i in 1..records.len() {
        if records[i].is_read() && is_committed(records, records[i].transaction) {
            if let Some(write) = reads_from(records, i, &[]) {
                pairs.push((records[i].transaction, records[write].transaction));
            }
        }
    }
    pairs
}

/// One byte per transaction number from 0: 0 no committed transaction, 1 kept, 2 taken back.
fn status_of(records: &[Record], undone: &[bool]) -> Vec<u8> {
    let mut status = vec![NOT_COMMITTED; STATUS_BYTES];
    for r in &records[1..] {
        if r.is_commit() {
            let number = r.transaction as usize;
            status[number] = if undone[number] { UNDONE } else { SURVIVING };
        }
    }
    status
}

/// The table left: the opening table with the afters of all kept writes set in record order.
fn repaired_table(records: &[Record], table: &[i32], status: &[u8]) -> Vec<i32> {
    let mut values = initial_values(records, table);
    for r in &records[1..] {
        if r.is_write() && status[r.transaction as usize] == SURVIVING {
            values[r.item as usize] = r.after;
        }
    }
    values
}

/// The opening amounts: the before of an item's first write, or the table's amount.
fn initial_values(records: &[Record], table: &[i32]) -> Vec<i32> {
    let initial = |item: usize| {
        let first = records[1..]
            .iter()
            .find(|r| r.is_write() && r.item as usize == item);
        first.map_or(table[item], |write| write.before)
    };
    (0..table.len()).map(initial).collect()
}

/// The copy: the same item count and just the kept transactions' records in order, renumbered,
/// with next worked out again and all other fields unchanged.
fn repaired_journal(records: &[Record], status: &[u8]) -> Vec<Record> {
    let mut repaired = vec![records[0]];
    for r in &records[1..] {
        if status[r.transaction as usize] == SURVIVING {
            repaired.push(*r);
        }
    }
    repaired[0].next = repaired.len() as u32 - 1;
    for i in 1..repaired.len() {
        repaired[i].next = next_link(&repaired, i);
    }
    repaired
}
