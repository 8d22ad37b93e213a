//! The fields of a journal's bytes (the layout: `docs/FORMAT.md`). Nothing is checked but the length;
//! [`check`](crate::check) says whether the fields are right.

use crate::{Item, Lsn, Transaction, RECORD_BYTES};

/// The two counts of a head.
#[derive(Clone, Copy, Debug, PartialEq, Eq)]
#[non_exhaustive]
pub struct Head {
    /// How many records the journal has, the head not counted.
    pub records: u32,
    /// How many items.
    pub items: u32,
}

impl Head {
    /// The head of a journal; `None` where it has fewer than 20 bytes.
    ///
    /// ```
    /// let mut journal = [0; 20];
    /// journal::start(&mut journal, 3)?;
    /// assert_eq!(journal::Head::of(&journal).unwrap().items, 3);
    /// assert_eq!(journal::Head::of(&journal[1..]), None);
    /// # Ok::<(), journal::Refusal>(())
    /// ```
    pub fn of(journal: &[u8]) -> Option<Head> {
        // In record 0 the two counts stand where other records have next and item.
        let head = Record::at(journal, Lsn(0))?;
        Some(Head {
            records: head.next.0,
            items: head.item.0,
        })
    }
}

/// The fields of a record.
#[derive(Clone, Copy, Debug, PartialEq, Eq)]
#[non_exhaustive]
pub struct Record {
    /// Byte 0, see [`kind`](crate::kind).
    pub kind: u8,
    /// Byte 1, which is 0.
    pub byte_1: u8,
    /// Whose record it is.
    pub transaction: Transaction,
    /// The transaction's next record, 0 if there is none.
    pub next: Lsn,
    /// The item read or written; 0 for a commit or an abort.
    pub item: Item,
    /// The amount before a write, otherwise 0.
    pub before: i32,
    /// The amount after a write, otherwise 0.
    pub after: i32,
}

impl Record {
    /// The record in these bytes.
    pub fn decode(bytes: &[u8; RECORD_BYTES]) -> Record {
        let four = |at: usize| [bytes[at], bytes[at + 1], bytes[at + 2], bytes[at + 3]];
        Record {
            kind: bytes[0],
            byte_1: bytes[1],
            transaction: Transaction(u16::from_le_bytes([bytes[2], bytes[3]])),
            next: Lsn(u32::from_le_bytes(four(4))),
            item: Item(u32::from_le_bytes(four(8))),
            before: i32::from_le_bytes(four(12)),
            after: i32::from_le_bytes(four(16)),
        }
    }

    /// The record of this number; `None` where its 20 bytes are not there. Number 0 is the head.
    ///
    /// ```
    /// use journal::{append, kind, Counts, Item, Lsn, Record, Transaction};
    ///
    /// let (mut journal, mut table, mut counts) = ([0; 40], [500], Counts::default());
    /// journal::start(&mut journal, 1)?;
    /// append(&mut journal, &mut table, &mut counts, kind::READ, Transaction(7), Item(0), 0)?;
    /// let read = Record::at(&journal, Lsn(1)).unwrap();
    /// assert_eq!((read.kind, read.transaction), (kind::READ, Transaction(7)));
    /// assert_eq!(Record::at(&journal, Lsn(2)), None);
    /// # Ok::<(), journal::Refusal>(())
    /// ```
    pub fn at(journal: &[u8], lsn: Lsn) -> Option<Record> {
        let start = usize::try_from(lsn.0).ok()?.checked_mul(RECORD_BYTES)?;
        let bytes = journal.get(start..)?.get(..RECORD_BYTES)?;
        bytes.try_into().ok().map(Record::decode)
    }
}

/// The records that the head counts, in order, as far as their bytes are there.
pub fn records(journal: &[u8]) -> impl Iterator<Item = (Lsn, Record)> + '_ {
    let count = Head::of(journal).map_or(0, |head| head.records);
    (1..=count)
        .map(Lsn)
        .map_while(|lsn| Some((lsn, Record::at(journal, lsn)?)))
}
