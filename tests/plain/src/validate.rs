//! Check, and the refusals 1 to 10 that all calls on a journal share.
//!
//! `records[0]` is the head, so `records[i]` is record i; "below i" is `records[1..i]`.

use crate::format::*;
use crate::refusal::*;

/// Check: how many transactions are active (01: open) at the end of the journal.
pub fn check(journal: &[u8], table: &[i32]) -> Result<u32, Refusal> {
    let records = validate(journal, table)?;
    let active = active_at(&records, records.len());
    Ok(active.iter().filter(|&&a| a).count() as u32)
}

/// Refusals 1, 2, 1, 3, 4 to 9, 10 in that order; else the records, head first.
pub(crate) fn validate(journal: &[u8], table: &[i32]) -> Result<Vec<Record>, Refusal> {
    let records = decode(journal)?;
    if table.len() != records[0].item as usize {
        return refuse(TABLE_LENGTH, 0);
    }
    let values = check_records(&records)?;
    for item in 0..table.len() {
        // A written item's current value (01: standing amount) must be the table's.
        if values[item].is_some_and(|value| value != table[item]) {
            return refuse(FINAL_STATE, item);
        }
    }
    Ok(records)
}

/// The same without 3 and 10, for the call that has no table.
pub(crate) fn validate_without_table(journal: &[u8]) -> Result<Vec<Record>, Refusal> {
    let records = decode(journal)?;
    check_records(&records)?;
    Ok(records)
}

/// Refusals 1 (under 20 bytes), 2, 1 (whole length); else the records, head first.
pub(crate) fn decode(journal: &[u8]) -> Result<Vec<Record>, Refusal> {
    if journal.len() < RECORD_BYTES {
        return refuse(TRUNCATED, 0);
    }
    let head = Record::decode(journal);
    if !head_fits(&head) {
        return refuse(BAD_HEADER, 0);
    }
    let count = head.next as usize;
    if journal.len() < RECORD_BYTES * (count + 1) {
        return refuse(TRUNCATED, 0);
    }
    let whole = &journal[..RECORD_BYTES * (count + 1)];
    Ok(whole.chunks(RECORD_BYTES).map(Record::decode).collect())
}

/// The column "head" of the layout.
fn head_fits(head: &Record) -> bool {
    head.kind == 0
        && head.zero == 0
        && head.transaction == 0
        && head.next <= MAX_RECORDS
        && items_fit(head.item)
        && head.before == 0
        && head.after == 0
}

/// Item count, 1 to 1,024.
pub(crate) fn items_fit(items: u32) -> bool {
    (1..=MAX_ITEMS).contains(&items)
}

/// Refusals 4 to 9: the lowest record decides, then the lowest number. Else the current value
/// (01: standing amount) of each written item at the end.
fn check_records(records: &[Record]) -> Result<Vec<Option<i32>>, Refusal> {
    let mut values = vec![None; records[0].item as usize];
    for i in 1..records.len() {
        if !record_fits(&records[i], records[0].item) {
            return refuse(MALFORMED, i);
        }
        if records[i].next != next_link(records, i) {
            return refuse(BROKEN_CHAIN, i);
        }
        if terminated_before(records, i) {
            return refuse(AFTER_TERMINATION, i);
        }
        if conflicts(records, i) {
            return refuse(CONFLICT, i);
        }
        if writes_blindly(records, i) {
            return refuse(BLIND_WRITE, i);
        }
        if before_image_differs(&records[i], &values) {
            return refuse(BEFORE_IMAGE, i);
        }
        apply(records, i, |item, value| values[item] = Some(value));
    }
    Ok(values)
}

/// The column "record" of the layout, next left out.
pub(crate) fn record_fits(record: &Record, items: u32) -> bool {
    let kind_fits = match record.kind {
        READ => record.item < items && record.before == 0 && record.after == 0,
        WRITE => record.item < items,
        COMMIT | ABORT => record.item == 0 && record.before == 0 && record.after == 0,
        _ => false,
    };
    kind_fits && record.zero == 0 && (1..=MAX_TRANSACTION).contains(&record.transaction)
}

/// 6: the transaction of record i has an end below i.
pub(crate) fn terminated_before(records: &[Record], i: usize) -> bool {
    records[1..i]
        .iter()
        .any(|r| r.transaction == records[i].transaction && r.is_termination())
}

/// 7: record i reads or writes an item that another active transaction has written, or writes
/// one that another active transaction has read.
pub(crate) fn conflicts(records: &[Record], i: usize) -> bool {
    let this = &records[i];
    if this.is_termination() {
        return false;
    }
    let active = active_at(records, i);
    records[1..i].iter().any(|r| {
        r.transaction != this.transaction
            && active[r.transaction as usize]
            && r.item == this.item
            && (r.is_write() || (r.is_read() && this.is_write()))
    })
}

/// 8: record i is a write with no earlier read of the item by its transaction.
pub(crate) fn writes_blindly(records: &[Record], i: usize) -> bool {
    let this = &records[i];
    let has_read = records[1..i]
        .iter()
        .any(|r| r.is_read() && r.transaction == this.transaction && r.item == this.item);
    this.is_write() && !has_read
}

/// 9: a write of an item with an earlier write, whose before is not the current value.
fn before_image_differs(record: &Record, values: &[Option<i32>]) -> bool {
    record.is_write() && values[record.item as usize].is_some_and(|value| value != record.before)
}

/// Active (01: open) at record i, by transaction number: a record below i and no end below i.
pub(crate) fn active_at(records: &[Record], i: usize) -> Vec<bool> {
    let mut active = vec![false; STATUS_BYTES];
    for r in &records[1..i] {
        active[r.transaction as usize] = true;
    }
    for r in &records[1..i] {
        if r.is_termination() {
            active[r.transaction as usize] = false;
        }
    }
    active
}

/// What record i does to the amounts. A write sets its after. At a rollback each item that the
/// transaction wrote returns to the before of its first write of it: going back over the writes,
/// the first write of an item is the last to set it.
pub(crate) fn apply(records: &[Record], i: usize, mut set: impl FnMut(usize, i32)) {
    let this = &records[i];
    if this.is_write() {
        set(this.item as usize, this.after);
    }
    if this.is_abort() {
        for r in records[1..i].iter().rev() {
            if r.is_write() && r.transaction == this.transaction {
                set(r.item as usize, r.before);
            }
        }
    }
}
