//! The functions of the static library, as they are.
//!
//! A slice is a pointer and its number of elements. Each function returns the refusal's number, 0 if
//! the call is accepted, and writes to `answer` in either case. `bindings/c/journal.h` describes each
//! call and each loan in full.
//!
//! # Safety
//!
//! For every function: each pointer is aligned and valid for its number of elements (`counts`: 4; a
//! pointer without a length: 1) throughout the call, for writing too where it is `*mut`; and no two
//! of them overlap. What is read is initialised (`journal.h`). A null pointer with length 0 is an
//! empty slice.

extern "C" {
    /// The number of the archive's interface, [`INTERFACE`](crate::INTERFACE). An archive of another one
    /// has no function of this name.
    ///
    /// # Safety
    ///
    /// Nothing is asked: it takes and touches nothing.
    pub fn journal_interface_1() -> u32;

    /// Starts a journal; answers 0.
    ///
    /// # Safety
    ///
    /// See the [module](self).
    pub fn journal_start(
        journal: *mut u8,
        journal_length: usize,
        items: u32,
        answer: *mut u64,
    ) -> u32;

    /// Adds one record; answers 0. `counts` are four: reads, writes, commits, aborts.
    ///
    /// # Safety
    ///
    /// See the [module](self).
    pub fn journal_append(
        journal: *mut u8,
        journal_length: usize,
        table: *mut i32,
        table_length: usize,
        counts: *mut u32,
        kind: u8,
        transaction: u16,
        item: u32,
        after: i32,
        answer: *mut u64,
    ) -> u32;

    /// Counts the records of a stored journal by kind; answers 0. The four counts are written only where
    /// the call is accepted.
    ///
    /// # Safety
    ///
    /// See the [module](self).
    pub fn journal_count_records(
        journal: *const u8,
        journal_length: usize,
        counts: *mut u32,
        answer: *mut u64,
    ) -> u32;

    /// Checks a journal with its table; answers how many transactions are active.
    ///
    /// # Safety
    ///
    /// See the [module](self).
    pub fn journal_check(
        journal: *const u8,
        journal_length: usize,
        table: *const i32,
        table_length: usize,
        answer: *mut u64,
    ) -> u32;

    /// Writes the record numbers of one transaction to the front of `lsns`; answers how many.
    ///
    /// # Safety
    ///
    /// See the [module](self).
    pub fn journal_chain(
        journal: *const u8,
        journal_length: usize,
        transaction: u16,
        lsns: *mut u32,
        lsns_length: usize,
        answer: *mut u64,
    ) -> u32;

    /// Undoes the listed transactions and all that read from them; answers the copy's bytes. The
    /// three counts are written only where the call is accepted.
    ///
    /// # Safety
    ///
    /// See the [module](self).
    pub fn journal_undo(
        journal: *const u8,
        journal_length: usize,
        table: *mut i32,
        table_length: usize,
        bad: *const u16,
        bad_length: usize,
        status: *mut u8,
        status_length: usize,
        out: *mut u8,
        out_length: usize,
        surviving: *mut u32,
        undone: *mut u32,
        aborted: *mut u32,
        answer: *mut u64,
    ) -> u32;
}
