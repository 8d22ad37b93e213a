//! Document 01's three separate numberings, each with a type of its own.

use std::fmt;

/// The number of a transaction ("sale"): 1 to 1,024 in a journal that passes.
#[derive(Clone, Copy, Debug, Default, PartialEq, Eq, PartialOrd, Ord, Hash)]
#[repr(transparent)]
pub struct Transaction(pub u16);

/// The number of an item, from 0.
#[derive(Clone, Copy, Debug, Default, PartialEq, Eq, PartialOrd, Ord, Hash)]
#[repr(transparent)]
pub struct Item(pub u32);

/// The number of a record, from 1; 0 is the head, or no record.
#[derive(Clone, Copy, Debug, Default, PartialEq, Eq, PartialOrd, Ord, Hash)]
#[repr(transparent)]
pub struct Lsn(pub u32);

impl Transaction {
    /// A list of numbers, as `bad.bin` has them, as a list of transactions.
    ///
    /// ```
    /// use journal::Transaction;
    /// assert_eq!(Transaction::list(&[3, 1]), [Transaction(3), Transaction(1)]);
    /// ```
    pub fn list(numbers: &[u16]) -> &[Transaction] {
        // SAFETY: a `Transaction` is laid out as a u16, and the list is borrowed as long as the numbers.
        unsafe { std::slice::from_raw_parts(numbers.as_ptr().cast(), numbers.len()) }
    }
}

impl fmt::Display for Transaction {
    fn fmt(&self, f: &mut fmt::Formatter<'_>) -> fmt::Result {
        self.0.fmt(f)
    }
}

impl fmt::Display for Item {
    fn fmt(&self, f: &mut fmt::Formatter<'_>) -> fmt::Result {
        self.0.fmt(f)
    }
}

impl fmt::Display for Lsn {
    fn fmt(&self, f: &mut fmt::Formatter<'_>) -> fmt::Result {
        self.0.fmt(f)
    }
}
