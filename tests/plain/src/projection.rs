//! What feeds a read (reads-from), in the whole journal and after removal of some transactions.

use crate::format::Record;
use crate::validate::decode;

/// Removal (the projection of the history): strikes out the records of the transactions in
/// `removed`. Answers for each read that stays its record number and the record number of the
/// write that feeds it, or `None` for the opening amount. Rolled-back transactions' reads are
/// there too. A journal whose head or length does not fit has no reads.
pub fn removal(journal: &[u8], removed: &[u16]) -> Vec<(u32, Option<u32>)> {
    let Ok(records) = decode(journal) else {
        return Vec::new();
    };
    let mut sources = Vec::new();
    for i in 1..records.len() {
        if records[i].is_read() && !removed.contains(&records[i].transaction) {
            let source = reads_from(&records, i, removed);
            sources.push((i as u32, source.map(|write| write as u32)));
        }
    }
    sources
}

/// A read by transaction T of an item is fed by the highest earlier write of that item that
/// changed the amount and whose transaction is T or has already committed; without one by the
/// opening amount (`None`). A write whose after is its before feeds no read, not even T's own
/// (02, request 3). Only records of transactions not in `removed` count.
pub(crate) fn reads_from(records: &[Record], read: usize, removed: &[u16]) -> Option<usize> {
    let this = &records[read];
    (1..read).rev().find(|&i| {
        let r = &records[i];
        !removed.contains(&r.transaction)
            && r.is_write()
            && r.item == this.item
            && r.after != r.before
            && (r.transaction == this.transaction || committed_before(records, r.transaction, read))
    })
}

/// The transaction has a commit below record i.
pub(crate) fn committed_before(records: &[Record], transaction: u16, i: usize) -> bool {
    records[1..i]
        .iter()
        .any(|r| r.is_commit() && r.transaction == transaction)
}
