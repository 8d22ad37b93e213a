//! Slip: the chain walk of one transaction.

use crate::format::Record;
use crate::refusal::*;
use crate::validate::validate_without_table;

/// Slip: writes the record numbers (LSNs) of one transaction into the lent list by following its
/// chain, and answers how many it visited. The rest of the list is not written.
pub fn chain(journal: &[u8], transaction: u16, lsns: &mut [u32]) -> Result<u32, Refusal> {
    let records = validate_without_table(journal)?;
    let Some(first) = (1..records.len()).find(|&i| records[i].transaction == transaction) else {
        return refuse(UNKNOWN, 0);
    };
    let visited = follow(&records, first as u32);
    if lsns.len() < visited.len() {
        return refuse(OUTPUT_LENGTH, 0);
    }
    lsns[..visited.len()].copy_from_slice(&visited);
    Ok(visited.len() as u32)
}

/// The record numbers met from `lsn` on; zero ends the chain.
fn follow(records: &[Record], mut lsn: u32) -> Vec<u32> {
    let mut visited = Vec::new();
    while lsn != 0 {
        visited.push(lsn);
        lsn = records[lsn as usize].next;
    }
    visited
}
