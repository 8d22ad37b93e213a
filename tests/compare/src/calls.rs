//! The C interface (`crates/capi`) over slices, with every loan in the caller's hand. Each function
//! returns the refusal's number, 0 if the call is accepted; `answer` gets the refusal's place or what
//! the call answers.

use journal::raw;

/// Starts a journal; answers 0.
pub fn start(journal: &mut [u8], items: u32, answer: &mut u64) -> u32 {
    // SAFETY: `journal` and `answer` are borrowed alone through the call; the length is the slice's.
    unsafe { raw::journal_start(journal.as_mut_ptr(), journal.len(), items, answer) }
}

/// Adds one record (01: post); answers 0.
#[allow(clippy::too_many_arguments)]
pub fn append(
    journal: &mut [u8],
    table: &mut [i32],
    counts: &mut [u32; 4],
    kind: u8,
    transaction: u16,
    item: u32,
    after: i32,
    answer: &mut u64,
) -> u32 {
    // SAFETY: all four loans are borrowed alone through the call; each length is its slice's.
    unsafe {
        raw::journal_append(
            journal.as_mut_ptr(),
            journal.len(),
            table.as_mut_ptr(),
            table.len(),
            counts.as_mut_ptr(),
            kind,
            transaction,
            item,
            after,
            answer,
        )
    }
}

/// Checks a journal with its table; answers how many transactions are active (01: open).
pub fn check(journal: &[u8], table: &[i32], answer: &mut u64) -> u32 {
    // SAFETY: journal and table are borrowed through the call and only read, `answer` is borrowed alone; each
    // length is its slice's.
    unsafe {
        raw::journal_check(
            journal.as_ptr(),
            journal.len(),
            table.as_ptr(),
            table.len(),
            answer,
        )
    }
}

/// Writes the record numbers of one transaction (01: slip); answers how many.
pub fn chain(journal: &[u8], transaction: u16, lsns: &mut [u32], answer: &mut u64) -> u32 {
    // SAFETY: the journal is borrowed through the call and only read, `lsns` and `answer` are borrowed alone;
    // each length is its slice's.
    unsafe {
        raw::journal_chain(
            journal.as_ptr(),
            journal.len(),
            transaction,
            lsns.as_mut_ptr(),
            lsns.len(),
            answer,
        )
    }
}

/// Counts the records of a stored journal by kind (01: tally); answers 0.
pub fn count_records(journal: &[u8], counts: &mut [u32; 4], answer: &mut u64) -> u32 {
    // SAFETY: the journal is borrowed through the call and only read, `counts` and `answer` are borrowed alone;
    // the length is the slice's.
    unsafe {
        raw::journal_count_records(journal.as_ptr(), journal.len(), counts.as_mut_ptr(), answer)
    }
}

/// Undoes the bad list and all that depends on it (01: take-back); answers the copy's bytes.
#[allow(clippy::too_many_arguments)]
pub fn undo(
    journal: &[u8],
    table: &mut [i32],
    bad: &[u16],
    status: &mut [u8],
    out: &mut [u8],
    surviving: &mut u32,
    undone: &mut u32,
    aborted: &mut u32,
    answer: &mut u64,
) -> u32 {
    // SAFETY: journal and list are borrowed through the call and only read, all else is borrowed alone; each
    // length is its slice's.
    unsafe {
        raw::journal_undo(
            journal.as_ptr(),
            journal.len(),
            table.as_mut_ptr(),
            table.len(),
            bad.as_ptr(),
            bad.len(),
            status.as_mut_ptr(),
            status.len(),
            out.as_mut_ptr(),
            out.len(),
            surviving,
            undone,
            aborted,
            answer,
        )
    }
}
