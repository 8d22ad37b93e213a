//! Refusals: document 01, "Reasons for handing it back".

use crate::{Item, Lsn, Transaction};
use std::error::Error;
use std::fmt;

/// Why a call is refused. Each case has document 01's number as its value; the quoted word is the
/// document's.
#[derive(Clone, Copy, Debug, PartialEq, Eq)]
#[non_exhaustive]
#[repr(u32)]
pub enum Reason {
    /// "torn": fewer than 20 bytes, or fewer than 20 × (record count + 1).
    Truncated = 1,
    /// "head": a field of the head, or start's item count, breaks the layout.
    Header = 2,
    /// "table": its length is not the item count.
    TableLength = 3,
    /// "smudge": a field other than next breaks the layout. Place: the record.
    Malformed = 4,
    /// "chain": next is wrong. Place: the record.
    Chain = 5,
    /// "closed": the transaction already has an end. Place: the record.
    Closed = 6,
    /// "crossed": a read or write of an item that another active transaction has written, or a write
    /// of one that another active transaction has read. Place: the record.
    Conflict = 7,
    /// "blind": a write with no earlier read of the item by its transaction. Place: the record.
    Blind = 8,
    /// "before": a write of an item with an earlier write, whose before image is not the standing
    /// amount. Place: the record.
    BeforeImage = 9,
    /// "close": a written item's standing amount at the end is not the table's. Place: the lowest
    /// such item.
    FinalState = 10,
    /// "open": an active transaction. Place: the lowest such transaction.
    Active = 11,
    /// "unknown": a listed number is not a committed transaction. Place: its lowest position in the
    /// list, from 0. In [`chain`](crate::chain()): a transaction without records, place 0.
    Unknown = 12,
    /// "marks": the status vector's length is not 1,025.
    StatusLength = 13,
    /// "paper": the copy's buffer or the list of record numbers is shorter than needed; in
    /// [`append`](crate::append) 3,200 records already, or under 20 bytes left.
    Capacity = 14,
    /// "tally": the counts differ from the journal.
    Counts = 15,
}

impl Reason {
    /// All of them, by number.
    pub const ALL: &'static [Reason] = &[
        Reason::Truncated,
        Reason::Header,
        Reason::TableLength,
        Reason::Malformed,
        Reason::Chain,
        Reason::Closed,
        Reason::Conflict,
        Reason::Blind,
        Reason::BeforeImage,
        Reason::FinalState,
        Reason::Active,
        Reason::Unknown,
        Reason::StatusLength,
        Reason::Capacity,
        Reason::Counts,
    ];

    /// Document 01's number.
    pub const fn number(self) -> u32 {
        self as u32
    }

    /// Document 01's word.
    pub const fn word(self) -> &'static str {
        match self {
            Reason::Truncated => "torn",
            Reason::Header => "head",
            Reason::TableLength => "table",
            Reason::Malformed => "smudge",
            Reason::Chain => "chain",
            Reason::Closed => "closed",
            Reason::Conflict => "crossed",
            Reason::Blind => "blind",
            Reason::BeforeImage => "before",
            Reason::FinalState => "close",
            Reason::Active => "open",
            Reason::Unknown => "unknown",
            Reason::StatusLength => "marks",
            Reason::Capacity => "paper",
            Reason::Counts => "tally",
        }
    }
}

/// The place of a refusal: what it is, with its number.
#[derive(Clone, Copy, Debug, PartialEq, Eq)]
#[non_exhaustive]
pub enum Place {
    /// The refusal has none; document 01's number for it is 0.
    None,
    /// A record: numbers 4 to 9.
    Record(Lsn),
    /// An item: number 10.
    Item(Item),
    /// A transaction: number 11.
    Transaction(Transaction),
    /// A position in the bad list, from 0: number 12.
    Position(u64),
    /// The place of a number that is not in [`Reason`].
    Other(u64),
}

impl Place {
    /// Document 01's number for it.
    pub fn number(self) -> u64 {
        match self {
            Place::None => 0,
            Place::Record(lsn) => lsn.0.into(),
            Place::Item(item) => item.0.into(),
            Place::Transaction(transaction) => transaction.0.into(),
            Place::Position(number) | Place::Other(number) => number,
        }
    }
}

/// A refusal: document 01's number and the place. The call has written to nothing it was lent.
///
/// It displays the document's word and the place, where it has one; `{:?}`, which is what a `main`
/// that returns it prints, adds the number:
///
/// ```
/// let refusal = journal::Refusal::new(6, 12);
/// assert_eq!(refusal.to_string(), "closed, record 12");
/// assert_eq!(format!("{refusal:?}"), "closed, record 12 (6)");
/// assert_eq!(refusal.reason(), Some(journal::Reason::Closed));
/// ```
#[derive(Clone, Copy, PartialEq, Eq)]
#[non_exhaustive]
pub struct Refusal {
    /// 1 to 15, see [`Reason`].
    pub number: u32,
    /// Where, and of what.
    pub place: Place,
}

impl Refusal {
    /// The refusal of this number, with the place as the library answers it.
    pub fn new(number: u32, place: u64) -> Refusal {
        // A record, an item and a transaction have 32 and 16 bits, and so have their places.
        let place = match number {
            4..=9 => Place::Record(Lsn(place as u32)),
            10 => Place::Item(Item(place as u32)),
            11 => Place::Transaction(Transaction(place as u16)),
            12 => Place::Position(place),
            1..=15 => Place::None,
            _ => Place::Other(place),
        };
        Refusal { number, place }
    }

    /// The reason of that number, if it is one.
    pub fn reason(self) -> Option<Reason> {
        let mut reasons = Reason::ALL.iter().copied();
        reasons.find(|reason| reason.number() == self.number)
    }
}

impl fmt::Display for Refusal {
    fn fmt(&self, f: &mut fmt::Formatter<'_>) -> fmt::Result {
        match self.reason() {
            Some(reason) => f.write_str(reason.word())?,
            None => write!(f, "number {}", self.number)?,
        }
        match self.place {
            Place::None => Ok(()),
            Place::Record(lsn) => write!(f, ", record {lsn}"),
            Place::Item(item) => write!(f, ", item {item}"),
            Place::Transaction(transaction) => write!(f, ", sale {transaction}"),
            Place::Position(position) => write!(f, ", position {position}"),
            Place::Other(place) => write!(f, ", place {place}"),
        }
    }
}

impl fmt::Debug for Refusal {
    fn fmt(&self, f: &mut fmt::Formatter<'_>) -> fmt::Result {
        write!(f, "{self} ({})", self.number)
    }
}

impl Error for Refusal {}
