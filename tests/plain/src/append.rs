//! Start and post: a new journal, and one record more; and the tally that post is lent.

use crate::format::*;
use crate::refusal::*;
use crate::validate::*;

/// Start: writes a head with record count 0 and the given item count.
pub fn start(journal: &mut [u8], items: u32) -> Result<(), Refusal> {
    if journal.len() < RECORD_BYTES {
        return refuse(TRUNCATED, 0);
    }
    if !items_fit(items) {
        return refuse(BAD_HEADER, 0);
    }
    put(journal, 0, &Record::head(0, items));
    Ok(())
}

/// Post: adds one record. `counts` (01: tally) are the reads, writes, commits and rollbacks.
#[allow(clippy::too_many_arguments)]
pub fn append(
    journal: &mut [u8],
    table: &mut [i32],
    counts: &mut [u32; 4],
    kind: u8,
    transaction: u16,
    item: u32,
    after: i32,
) -> Result<(), Refusal> {
    let mut records = validate(journal, table)?;
    if *counts != counts_of(&records) {
        return refuse(COUNTS, 0);
    }
    let lsn = records.len();
    records.push(Record {
        kind,
        transaction,
        item,
        after,
        ..Record::default()
    });
    check_new_record(&records)?;
    if lsn > MAX_RECORDS as usize || journal.len() < RECORD_BYTES * (lsn + 1) {
        return refuse(OUTPUT_LENGTH, 0);
    }
    if kind == WRITE {
        records[lsn].before = table[item as usize];
    }
    apply(&records, lsn, |item, value| table[item] = value);
    counts[kind as usize - 1] += 1;
    put(journal, lsn, &records[lsn]);
    link(journal, &records);
    put(journal, 0, &Record::head(lsn as u32, records[0].item));
    Ok(())
}

/// 4, 6, 7, 8 for the new record, which is the last one; the place is its number.
fn check_new_record(records: &[Record]) -> Result<(), Refusal> {
    let lsn = records.len() - 1;
    if !record_fits(&records[lsn], records[0].item) {
        return refuse(MALFORMED, lsn);
    }
    if terminated_before(records, lsn) {
        return refuse(AFTER_TERMINATION, lsn);
    }
    if conflicts(records, lsn) {
        return refuse(CONFLICT, lsn);
    }
    if writes_blindly(records, lsn) {
        return refuse(BLIND_WRITE, lsn);
    }
    Ok(())
}

/// Sets the chain: the transaction's last earlier record, if any, gets the new record as next.
fn link(journal: &mut [u8], records: &[Record]) {
    let lsn = records.len() - 1;
    for i in (1..lsn).rev() {
        if records[i].transaction == records[lsn].transaction {
            let linked = Record {
                next: lsn as u32,
                ..records[i]
            };
            put(journal, i, &linked);
            return;
        }
    }
}

/// The tally of a stored journal: refusals 1, 2, 1; no record is checked, and one of another kind is in
/// none of the four.
pub fn count_records(journal: &[u8], counts: &mut [u32; 4]) -> Result<(), Refusal> {
    *counts = counts_of(&decode(journal)?);
    Ok(())
}

/// The reads, writes, commits and rollbacks of the journal.
pub(crate) fn counts_of(records: &[Record]) -> [u32; 4] {
    [READ, WRITE, COMMIT, ABORT]
        .map(|kind| records[1..].iter().filter(|r| r.kind == kind).count() as u32)
}

/// Writes record i into the bytes.
pub(crate) fn put(bytes: &mut [u8], i: usize, record: &Record) {
    bytes[RECORD_BYTES * i..RECORD_BYTES * (i + 1)].copy_from_slice(&record.encode());
}
