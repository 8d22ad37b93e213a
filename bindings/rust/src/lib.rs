//! The depot journal (document 01): start, post, check, slip and take-back, and the count of a stored
//! journal, over the proved static library `capi`.
//!
//! A *transaction* is document 01's "sale", an *LSN* its "record number", *abort* its "rollback" and
//! *active* its "open"; [`append`] is "post", [`chain`](chain()) is "slip", [`undo`] is "take-back".
//! [`Transaction`], [`Item`] and [`Lsn`] are three separate numberings, each a type of its own.
//!
//! Every call takes slices of any length and content. It is accepted, or refused with a number and a
//! place ([`Refusal`]); a refused call has written to nothing it was lent. No state is kept between
//! calls, and none allocates: working arrays are on the stack, and `bindings/c/journal.h` says how much
//! each call takes. If the process stops during a call, what is lent to be written may be written in
//! part: work on copies, store journal and table together, and put both in place by one rename. The
//! copy of an undo with the table of before can pass [`check`] with wrong amounts. `examples/keep.rs`
//! keeps a result so.
//!
//! The layout of a journal is in `docs/FORMAT.md`, the terms are in `bindings/c/journal.h`; [`Head`],
//! [`Record`] and [`records`] read the bytes, and `examples/show.rs` prints them.
//!
//! ```
//! use journal::{append, check, journal_bytes, kind, start, status, undo};
//! use journal::{Counts, Item, Transaction, STATUS_BYTES};
//!
//! # fn main() -> Result<(), journal::Refusal> {
//! // Sale 1 takes 180 pence from item 0, sale 2 reads item 1.
//! let mut journal = vec![0; journal_bytes(5)];
//! let mut table = [500, 7];
//! let mut counts = Counts::default();
//! start(&mut journal, 2)?;
//! append(&mut journal, &mut table, &mut counts, kind::READ, Transaction(1), Item(0), 0)?;
//! append(&mut journal, &mut table, &mut counts, kind::WRITE, Transaction(1), Item(0), 320)?;
//! append(&mut journal, &mut table, &mut counts, kind::COMMIT, Transaction(1), Item(0), 0)?;
//! append(&mut journal, &mut table, &mut counts, kind::READ, Transaction(2), Item(1), 0)?;
//! assert_eq!(check(&journal, &table)?, 1);
//! append(&mut journal, &mut table, &mut counts, kind::COMMIT, Transaction(2), Item(0), 0)?;
//! assert_eq!(counts, Counts { reads: 2, writes: 1, commits: 2, aborts: 0 });
//!
//! // Sale 1 turns out bad.
//! let mut marks = [0; STATUS_BYTES];
//! let mut out = vec![0; journal.len()];
//! let totals = undo(&journal, &mut table, &[Transaction(1)], &mut marks, &mut out)?;
//! assert_eq!((totals.surviving, totals.undone, totals.aborted), (1, 1, 0));
//! assert_eq!(marks[1..=2], [status::UNDONE, status::SURVIVING]);
//! assert_eq!(table, [500, 7]);
//! assert_eq!(check(&out[..totals.bytes], &table)?, 0);
//!
//! // Posting goes on in the copy, which has room behind it, with the copy's counts.
//! let mut counts = Counts::of(&out)?;
//! append(&mut out, &mut table, &mut counts, kind::READ, Transaction(3), Item(0), 0)?;
//! # Ok(())
//! # }
//! ```

#![warn(missing_docs, clippy::undocumented_unsafe_blocks)]

mod numbers;
pub mod raw;
mod record;
mod refusal;

pub use numbers::{Item, Lsn, Transaction};
pub use record::{records, Head, Record};
pub use refusal::{Place, Reason, Refusal};

/// The number of the C interface that this crate is for; it rises when a signature changes. Every
/// function here calls one of the archive that has this number in its name, so an archive of another
/// number does not link.
pub const INTERFACE: u32 = 1;

/// Bytes of the head and of each record.
pub const RECORD_BYTES: usize = 20;

/// Records of a journal at most, the head not counted. They are numbered from 1.
pub const MAX_RECORDS: usize = 3_200;

/// Bytes of a journal of that many records.
pub const MAX_BYTES: usize = journal_bytes(MAX_RECORDS);

/// Items of a journal at most; it has at least one. They are numbered from 0.
pub const MAX_ITEMS: usize = 1_024;

/// The highest number of a transaction; the lowest is 1.
pub const MAX_TRANSACTION: u16 = 1_024;

/// Length of the status vector: one byte per transaction number, from 0.
pub const STATUS_BYTES: usize = 1_025;

/// Kinds of record. Plain bytes, as a journal holds them: [`append`] refuses every other one with
/// [`Reason::Malformed`].
pub mod kind {
    /// A read.
    pub const READ: u8 = 1;
    /// A write.
    pub const WRITE: u8 = 2;
    /// A commit.
    pub const COMMIT: u8 = 3;
    /// An abort ("rollback").
    pub const ABORT: u8 = 4;
}

/// Bytes of the status vector, as [`undo`] writes it.
pub mod status {
    /// No committed transaction of that number.
    pub const NOT_COMMITTED: u8 = 0;
    /// The transaction survives ("kept").
    pub const SURVIVING: u8 = 1;
    /// The transaction is undone ("taken back").
    pub const UNDONE: u8 = 2;
}

/// Bytes of a journal of this many records: the head and the records.
///
/// ```
/// assert_eq!(journal::journal_bytes(3), 80);
/// ```
pub const fn journal_bytes(records: usize) -> usize {
    RECORD_BYTES * (records + 1)
}

/// How many records of each kind a journal has ("tally"). All are 0 for a journal just started;
/// [`Counts::of`] gives those of a stored journal or a copy.
#[derive(Clone, Copy, Debug, Default, PartialEq, Eq)]
#[repr(C)]
pub struct Counts {
    /// Reads.
    pub reads: u32,
    /// Writes.
    pub writes: u32,
    /// Commits.
    pub commits: u32,
    /// Aborts ("rollbacks").
    pub aborts: u32,
}

impl Counts {
    /// The counts of a stored journal, or of the copy that [`undo`] wrote: with them [`append`] goes on.
    /// No record is checked, and one of another kind is in none of the counts; [`append`] checks all of
    /// them.
    ///
    /// # Errors
    ///
    /// In order: 1 (under 20 bytes), 2, 1 (whole length). Place 0.
    ///
    /// ```
    /// use journal::{append, kind, Counts, Item, Transaction};
    ///
    /// let (mut journal, mut table, mut counts) = ([0; 60], [500], Counts::default());
    /// journal::start(&mut journal, 1)?;
    /// append(&mut journal, &mut table, &mut counts, kind::READ, Transaction(1), Item(0), 0)?;
    /// assert_eq!(Counts::of(&journal)?, counts);
    /// assert_eq!(Counts::of(&journal[..39]).unwrap_err().to_string(), "torn");
    /// # Ok::<(), journal::Refusal>(())
    /// ```
    pub fn of(journal: &[u8]) -> Result<Counts, Refusal> {
        let mut counts = Counts::default();
        // SAFETY: the journal is borrowed through the call and only read, `counts` and `answer` are
        // borrowed alone; the length is the slice's.
        ask(|answer| unsafe {
            raw::journal_count_records(journal.as_ptr(), journal.len(), counts.numbers(), answer)
        })?;
        Ok(counts)
    }

    /// The four numbers, in the order of the library.
    fn numbers(&mut self) -> *mut u32 {
        let counts: *mut Counts = self;
        counts.cast()
    }
}

/// What an accepted [`undo`] answers.
#[derive(Clone, Copy, Debug, PartialEq, Eq)]
#[non_exhaustive]
pub struct Undone {
    /// How many transactions survive ("kept").
    pub surviving: u32,
    /// How many are undone ("taken back").
    pub undone: u32,
    /// How many had been aborted ("dropped").
    pub aborted: u32,
    /// Bytes of the copy, from the front of `out`.
    pub bytes: usize,
}

/// Makes a call of the library, which is lent a place for its answer. The library is of this interface,
/// or it does not link.
fn ask(call: impl FnOnce(&mut u64) -> u32) -> Result<u64, Refusal> {
    // SAFETY: the function takes and touches nothing.
    let interface = unsafe { raw::journal_interface_1() };
    assert_eq!(interface, INTERFACE);
    let mut answer = 0;
    match call(&mut answer) {
        0 => Ok(answer),
        number => Err(Refusal::new(number, answer)),
    }
}

/// Starts a journal of this many items, without records. Where accepted it writes the first 20 bytes
/// of `journal`.
///
/// # Errors
///
/// In order: 1 (under 20 bytes), 2 (`items` is 0 or above 1,024). Place 0.
///
/// ```
/// let mut journal = [0xFF; 40];
/// journal::start(&mut journal, 3)?;
/// assert_eq!(journal::check(&journal, &[500, 0, 1000])?, 0);
/// assert_eq!(journal::start(&mut journal, 0).unwrap_err().to_string(), "head");
/// # Ok::<(), journal::Refusal>(())
/// ```
pub fn start(journal: &mut [u8], items: u32) -> Result<(), Refusal> {
    // SAFETY: `journal` and `answer` are borrowed alone through the call; the length is the slice's.
    ask(|answer| unsafe {
        raw::journal_start(journal.as_mut_ptr(), journal.len(), items, answer)
    })?;
    Ok(())
}

/// Adds one record ("post"). A write's before image is the table's amount.
///
/// Where accepted it writes the new record behind the last one, next of the transaction's record
/// before it, and the head's count; in `table` the item of a write, or after an abort every item that
/// the transaction wrote; and it raises one of `counts` by one. `journal` is the room, and may be
/// longer than its records. `after` must be 0 unless the record is a write, `item` must be 0 for a
/// commit or an abort.
///
/// # Errors
///
/// In order: 1 (under 20 bytes), 2, 1 (whole length), 3; 4 to 9, the lowest record first, at one
/// record the lowest number; 10, 15; then for the new record 4, 6, 7, 8, with place record count + 1;
/// 14.
///
/// ```
/// use journal::{append, kind, Counts, Item, Lsn, Place, Transaction};
///
/// let mut journal = [0; 60];
/// let (mut table, mut counts) = ([500], Counts::default());
/// let (sale, item) = (Transaction(1), Item(0));
/// journal::start(&mut journal, 1)?;
/// let blind = append(&mut journal, &mut table, &mut counts, kind::WRITE, sale, item, 320);
/// assert_eq!(blind.unwrap_err().place, Place::Record(Lsn(1)));
/// append(&mut journal, &mut table, &mut counts, kind::READ, sale, item, 0)?;
/// append(&mut journal, &mut table, &mut counts, kind::WRITE, sale, item, 320)?;
/// assert_eq!(table, [320]);
/// let full = append(&mut journal, &mut table, &mut counts, kind::COMMIT, sale, item, 0);
/// assert_eq!(full.unwrap_err().to_string(), "paper");
/// # Ok::<(), journal::Refusal>(())
/// ```
pub fn append(
    journal: &mut [u8],
    table: &mut [i32],
    counts: &mut Counts,
    kind: u8,
    transaction: Transaction,
    item: Item,
    after: i32,
) -> Result<(), Refusal> {
    // SAFETY: all four loans are borrowed alone through the call; each length is its slice's.
    ask(|answer| unsafe {
        raw::journal_append(
            journal.as_mut_ptr(),
            journal.len(),
            table.as_mut_ptr(),
            table.len(),
            counts.numbers(),
            kind,
            transaction.0,
            item.0,
            after,
            answer,
        )
    })?;
    Ok(())
}

/// Checks a journal with its table; answers how many transactions are active.
///
/// # Errors
///
/// In order: 1 (under 20 bytes), 2, 1 (whole length), 3; 4 to 9, the lowest record first, at one
/// record the lowest number; 10.
///
/// ```
/// let torn = journal::check(&[0; 19], &[]).unwrap_err();
/// assert_eq!((torn.number, torn.place), (1, journal::Place::None));
/// ```
pub fn check(journal: &[u8], table: &[i32]) -> Result<u32, Refusal> {
    // SAFETY: journal and table are borrowed through the call and only read, `answer` is borrowed alone;
    // each length is its slice's.
    let active = ask(|answer| unsafe {
        raw::journal_check(
            journal.as_ptr(),
            journal.len(),
            table.as_ptr(),
            table.len(),
            answer,
        )
    })?;
    // At most 1,024.
    Ok(active as u32)
}

/// Writes the record numbers of one transaction, in order, to the front of `lsns` ("slip"); answers
/// how many there are. The rest of `lsns` is not written.
///
/// # Errors
///
/// In order: 1 (under 20 bytes), 2, 1 (whole length); 4 to 9, the lowest record first, at one record
/// the lowest number; 12, 14, both without a place.
///
/// ```
/// use journal::{append, chain, kind, Counts, Item, Lsn, Transaction};
///
/// let mut journal = [0; 80];
/// let (mut table, mut counts) = ([500], Counts::default());
/// journal::start(&mut journal, 1)?;
/// for sale in [4, 2, 4].map(Transaction) {
///     append(&mut journal, &mut table, &mut counts, kind::READ, sale, Item(0), 0)?;
/// }
/// let mut lsns = [Lsn(0); 3];
/// let visited = chain(&journal, Transaction(4), &mut lsns)?;
/// assert_eq!(lsns[..visited], [Lsn(1), Lsn(3)]);
/// # Ok::<(), journal::Refusal>(())
/// ```
pub fn chain(journal: &[u8], transaction: Transaction, lsns: &mut [Lsn]) -> Result<usize, Refusal> {
    // SAFETY: the journal is borrowed through the call and only read, `lsns` and `answer` are borrowed
    // alone; each length is its slice's, and an `Lsn` is laid out as a u32.
    let visited = ask(|answer| unsafe {
        raw::journal_chain(
            journal.as_ptr(),
            journal.len(),
            transaction.0,
            lsns.as_mut_ptr().cast(),
            lsns.len(),
            answer,
        )
    });
    match visited {
        // At most the length of `lsns`.
        Ok(visited) => Ok(visited as usize),
        // No list is lent here, so 12 has no position.
        Err(refusal) if refusal.reason() == Some(Reason::Unknown) => Err(Refusal {
            place: Place::None,
            ..refusal
        }),
        Err(refusal) => Err(refusal),
    }
}

/// Undoes the listed transactions and every committed transaction that read from them, directly or
/// through others ("take-back"). A read of an item reads from the highest earlier write that
/// changed the amount, by its own transaction or one already committed.
///
/// Where accepted, `table` has the amounts that the surviving transactions leave, `status` has a byte
/// of [`status`](mod@status) per transaction number, and the front of `out` is the copy: the journal
/// of the surviving transactions. The rest of `out` is not written. `bad` may be empty, and may repeat
/// a number. Copy `table` first if you may have to go back: after the call it belongs to the copy and
/// not to `journal`. An `out` as long as `journal` is always long enough.
///
/// # Errors
///
/// In order: 1 (under 20 bytes), 2, 1 (whole length), 3; 4 to 9, the lowest record first, at one
/// record the lowest number; 10, 11, 13, 12, 14.
///
/// ```
/// let mut journal = [0; 20];
/// journal::start(&mut journal, 1)?;
/// let (mut table, mut status, mut out) = ([500], [0; journal::STATUS_BYTES], [0; 20]);
/// let bad = [journal::Transaction(4)];
/// let unknown = journal::undo(&journal, &mut table, &bad, &mut status, &mut out);
/// assert_eq!(unknown.unwrap_err().to_string(), "unknown, position 0");
/// assert_eq!(journal::undo(&journal, &mut table, &[], &mut status, &mut out)?.bytes, 20);
/// # Ok::<(), journal::Refusal>(())
/// ```
pub fn undo(
    journal: &[u8],
    table: &mut [i32],
    bad: &[Transaction],
    status: &mut [u8],
    out: &mut [u8],
) -> Result<Undone, Refusal> {
    let (mut surviving, mut undone, mut aborted) = (0, 0, 0);
    // SAFETY: journal and list are borrowed through the call and only read, all else is borrowed alone;
    // each length is its slice's, and a `Transaction` is laid out as a u16.
    let bytes = ask(|answer| unsafe {
        raw::journal_undo(
            journal.as_ptr(),
            journal.len(),
            table.as_mut_ptr(),
            table.len(),
            bad.as_ptr().cast(),
            bad.len(),
            status.as_mut_ptr(),
            status.len(),
            out.as_mut_ptr(),
            out.len(),
            &mut surviving,
            &mut undone,
            &mut aborted,
            answer,
        )
    })?;
    Ok(Undone {
        surviving,
        undone,
        aborted,
        // At most the length of `out`.
        bytes: bytes as usize,
    })
}
