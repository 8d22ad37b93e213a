//! What is drawn of a day.

use journal::{kind, records, status, undo, Item, Lsn, Record, Refusal, Transaction};
use journal::{MAX_BYTES, STATUS_BYTES};
use std::collections::HashMap;

/// What becomes of a sale.
#[derive(Clone, Copy, Debug, PartialEq, Eq)]
pub enum Fate {
    /// It is taken back.
    Goes,
    /// It is kept.
    Stays,
    /// It had rolled back.
    Dropped,
    /// The day is refused, so nothing becomes of it.
    Undecided,
}

/// A sale with its records.
pub struct Sale {
    pub number: Transaction,
    pub records: Vec<Lsn>,
    pub fate: Fate,
    pub listed: bool,
}

/// The totals of a take-back: kept, taken back and dropped sales, and the copy's records.
pub struct Totals {
    pub kept: u32,
    pub back: u32,
    pub dropped: u32,
    pub copied: usize,
}

pub struct Day {
    /// Record 1 first.
    pub records: Vec<Record>,
    /// In the order of their first records.
    pub sales: Vec<Sale>,
    /// Each read with the write that feeds it, where there is one. None in a refused day.
    pub feeds: Vec<(Lsn, Lsn)>,
    pub bad: Vec<Transaction>,
    /// Each changed item, with its amount before and after.
    pub changed: Vec<(Item, i32, i32)>,
    pub result: Result<Totals, Refusal>,
    /// The index of each sale among `sales`.
    rows: HashMap<Transaction, usize>,
}

/// The whole entries of a file's first 64,020 bytes.
fn entries<const N: usize, T>(file: &[u8], entry: fn([u8; N]) -> T) -> Vec<T> {
    let whole = front(file).chunks_exact(N);
    whole
        .map(|bytes| entry(bytes.try_into().unwrap()))
        .collect()
}

fn front(file: &[u8]) -> &[u8] {
    &file[..file.len().min(MAX_BYTES)]
}

impl Day {
    /// The day of these three files, read as the program reads them.
    pub fn new(journal: &[u8], table: &[u8], bad: &[u8]) -> Day {
        let journal = front(journal);
        let old = entries(table, i32::from_le_bytes);
        let bad: Vec<Transaction> = entries(bad, |two| Transaction(u16::from_le_bytes(two)));
        let (mut new, mut marks) = (old.clone(), [0; STATUS_BYTES]);
        let mut copy = vec![0; MAX_BYTES];
        let result = undo(journal, &mut new, &bad, &mut marks, &mut copy);

        let records: Vec<Record> = records(journal).map(|(_, record)| record).collect();
        let fate = |sale: Transaction| match marks.get(usize::from(sale.0)) {
            _ if result.is_err() => Fate::Undecided,
            Some(&status::UNDONE) => Fate::Goes,
            Some(&status::SURVIVING) => Fate::Stays,
            _ => Fate::Dropped,
        };
        let fed = |(read, write): (u32, Option<u32>)| Some((Lsn(read), Lsn(write?)));
        let sales = sales(&records, &bad, fate);
        Day {
            rows: sales.iter().map(|sale| sale.number).zip(0..).collect(),
            sales,
            feeds: match result {
                Ok(_) => plain::removal(journal, &[])
                    .into_iter()
                    .filter_map(fed)
                    .collect(),
                Err(_) => Vec::new(),
            },
            records,
            bad,
            changed: (0..)
                .map(Item)
                .zip(old.into_iter().zip(new))
                .filter(|(_, (old, new))| old != new)
                .map(|(item, (old, new))| (item, old, new))
                .collect(),
            result: result.map(|totals| Totals {
                kept: totals.surviving,
                back: totals.undone,
                dropped: totals.aborted,
                copied: totals.bytes / journal::RECORD_BYTES - 1,
            }),
        }
    }

    /// The record of this number, which the day has.
    pub fn record(&self, lsn: Lsn) -> &Record {
        &self.records[lsn.0 as usize - 1]
    }

    /// The index of the sale whose record it is.
    pub fn row(&self, lsn: Lsn) -> usize {
        self.rows[&self.record(lsn).transaction]
    }
}

/// What an item's reads and writes have in common.
pub trait Accesses {
    /// It reads or writes this item.
    fn accesses(&self, item: Item) -> bool;
}

impl Accesses for Record {
    fn accesses(&self, item: Item) -> bool {
        self.item == item && matches!(self.kind, kind::READ | kind::WRITE)
    }
}

fn sales(records: &[Record], bad: &[Transaction], fate: impl Fn(Transaction) -> Fate) -> Vec<Sale> {
    let mut sales: Vec<Sale> = Vec::new();
    let mut rows = HashMap::new();
    for (lsn, record) in (1..).map(Lsn).zip(records) {
        let number = record.transaction;
        let row = *rows.entry(number).or_insert_with(|| {
            sales.push(Sale {
                number,
                records: Vec::new(),
                fate: fate(number),
                listed: bad.contains(&number),
            });
            sales.len() - 1
        });
        sales[row].records.push(lsn);
    }
    sales
}
