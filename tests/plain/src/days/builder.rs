//! A fast builder of journals that pass: it keeps the rules with one slot per transaction and
//! item, and shares no code with the calls.

use crate::format::*;

/// How far a transaction has come.
#[derive(Debug, Clone, Copy, PartialEq, Eq)]
pub enum Progress {
    Unused,
    Active,
    Committed,
    Aborted,
}

/// What an item was before its transaction's first write of it, a rewrite or not.
struct FirstWrite {
    item: u32,
    before: i32,
    writer: u16,
}

/// The slots of one transaction.
struct Transaction {
    progress: Progress,
    last: usize,
    reads: Vec<u32>,
    writes: Vec<FirstWrite>,
    sources: Vec<u16>,
    records: u32,
}

/// The slots of one item. `writer` is the last one that changed the amount and has not rolled
/// back, 0 for none.
#[derive(Clone, Default)]
struct Item {
    initial: i32,
    value: i32,
    writer: u16,
    active_writer: u16,
    active_readers: Vec<u16>,
}

pub struct Builder {
    /// Head first, so that `records[i]` is record i; the head is filled in by `finish`.
    pub records: Vec<Record>,
    transactions: Vec<Transaction>,
    items: Vec<Item>,
    commits: Vec<u16>,
    active: Vec<u16>,
}

impl Builder {
    /// A journal without records over this opening table.
    pub fn new(initial: &[i32]) -> Builder {
        let transaction = || Transaction {
            progress: Progress::Unused,
            last: 0,
            reads: Vec::new(),
            writes: Vec::new(),
            sources: Vec::new(),
            records: 0,
        };
        let item = |&amount: &i32| Item {
            initial: amount,
            value: amount,
            ..Item::default()
        };
        Builder {
            records: vec![Record::head(0, initial.len() as u32)],
            transactions: (0..STATUS_BYTES).map(|_| transaction()).collect(),
            items: initial.iter().map(item).collect(),
            commits: Vec::new(),
            active: Vec::new(),
        }
    }

    pub fn count(&self) -> usize {
        self.records.len() - 1
    }

    pub fn item_count(&self) -> u32 {
        self.items.len() as u32
    }

    pub fn progress(&self, transaction: u16) -> Progress {
        match self.transactions.get(transaction as usize) {
            Some(slot) => slot.progress,
            None => Progress::Unused,
        }
    }

    /// The active transactions (01: open) in the order of their first records.
    pub fn active(&self) -> &[u16] {
        &self.active
    }

    /// The committed transactions in the order of their commits.
    pub fn commits(&self) -> &[u16] {
        &self.commits
    }

    /// The items that a transaction has read.
    pub fn reads_of(&self, transaction: u16) -> &[u32] {
        &self.transactions[transaction as usize].reads
    }

    /// How many records a transaction has.
    pub fn records_of(&self, transaction: u16) -> u32 {
        match self.transactions.get(transaction as usize) {
            Some(slot) => slot.records,
            None => 0,
        }
    }

    /// What an item stands at.
    pub fn value(&self, item: u32) -> i32 {
        self.items[item as usize].value
    }

    /// What an item stood at when the day began.
    pub fn initial(&self, item: u32) -> i32 {
        self.items[item as usize].initial
    }

    /// What an item stood at before this active transaction wrote it.
    pub fn found(&self, transaction: u16, item: u32) -> i32 {
        let writes = &self.transactions[transaction as usize].writes;
        let first = writes.iter().find(|write| write.item == item);
        first.map_or(self.value(item), |write| write.before)
    }

    pub fn table(&self) -> Vec<i32> {
        self.items.iter().map(|item| item.value).collect()
    }

    pub fn initial_table(&self) -> Vec<i32> {
        self.items.iter().map(|item| item.initial).collect()
    }

    fn may_go_on(&self, transaction: u16) -> bool {
        matches!(
            self.progress(transaction),
            Progress::Unused | Progress::Active
        ) && (1..=MAX_TRANSACTION).contains(&transaction)
    }

    pub fn may_read(&self, transaction: u16, item: u32) -> bool {
        let writer = self.items[item as usize].active_writer;
        self.may_go_on(transaction) && (writer == 0 || writer == transaction)
    }

    pub fn may_write(&self, transaction: u16, item: u32) -> bool {
        let readers = &self.items[item as usize].active_readers;
        self.may_read(transaction, item) && readers == &[transaction]
    }

    pub fn read(&mut self, transaction: u16, item: u32) {
        self.push(READ, transaction, item, 0, 0);
        let slot = &mut self.items[item as usize];
        if !slot.active_readers.contains(&transaction) {
            slot.active_readers.push(transaction);
        }
        let of = &mut self.transactions[transaction as usize];
        if !of.reads.contains(&item) {
            of.reads.push(item);
        }
        if slot.writer != 0 && slot.writer != transaction && !of.sources.contains(&slot.writer) {
            of.sources.push(slot.writer);
        }
    }

    pub fn write(&mut self, transaction: u16, item: u32, after: i32) {
        let before = self.items[item as usize].value;
        self.push(WRITE, transaction, item, before, after);
        let slot = &mut self.items[item as usize];
        let of = &mut self.transactions[transaction as usize];
        if !of.writes.iter().any(|write| write.item == item) {
            of.writes.push(FirstWrite {
                item,
                before,
                writer: slot.writer,
            });
        }
        if after != before {
            slot.writer = transaction;
        }
        slot.value = after;
        slot.active_writer = transaction;
    }

    pub fn commit(&mut self, transaction: u16) {
        self.push(COMMIT, transaction, 0, 0, 0);
        self.terminate(transaction, Progress::Committed);
        self.commits.push(transaction);
    }

    pub fn abort(&mut self, transaction: u16) {
        self.push(ABORT, transaction, 0, 0, 0);
        for write in &self.transactions[transaction as usize].writes {
            let slot = &mut self.items[write.item as usize];
            slot.value = write.before;
            slot.writer = write.writer;
        }
        self.terminate(transaction, Progress::Aborted);
    }

    fn terminate(&mut self, transaction: u16, progress: Progress) {
        let of = &mut self.transactions[transaction as usize];
        of.progress = progress;
        for &item in &of.reads {
            let slot = &mut self.items[item as usize];
            slot.active_readers.retain(|&reader| reader != transaction);
            if slot.active_writer == transaction {
                slot.active_writer = 0;
            }
        }
        self.active.retain(|&other| other != transaction);
    }

    fn push(&mut self, kind: u8, transaction: u16, item: u32, before: i32, after: i32) {
        let lsn = self.records.len();
        let of = &mut self.transactions[transaction as usize];
        if of.progress == Progress::Unused {
            of.progress = Progress::Active;
            self.active.push(transaction);
        }
        if of.last != 0 {
            self.records[of.last].next = lsn as u32;
        }
        of.last = lsn;
        of.records += 1;
        self.records.push(Record {
            kind,
            transaction,
            item,
            before,
            after,
            ..Record::default()
        });
    }

    /// Fills in the head.
    pub fn finish(&mut self) {
        self.records[0].next = self.count() as u32;
    }

    /// The undo set of a bad set (01: taken-back set), one pass in the order of the commits: a
    /// transaction reads only from those that committed earlier.
    pub fn undo_set(&self, bad: &[u16]) -> Vec<u16> {
        let mut undone = vec![false; STATUS_BYTES];
        for &transaction in bad {
            if self.progress(transaction) == Progress::Committed {
                undone[transaction as usize] = true;
            }
        }
        for &transaction in &self.commits {
            let sources = &self.transactions[transaction as usize].sources;
            if sources.iter().any(|&source| undone[source as usize]) {
                undone[transaction as usize] = true;
            }
        }
        (0..=MAX_TRANSACTION)
            .filter(|&transaction| undone[transaction as usize])
            .collect()
    }

    /// How many bytes the repaired journal (01: copy) has.
    pub fn repaired_bytes(&self, bad: &[u16]) -> usize {
        let undone = self.undo_set(bad);
        let surviving = self.commits.iter().filter(|t| !undone.contains(t));
        let records: u32 = surviving.map(|&t| self.records_of(t)).sum();
        RECORD_BYTES * (records as usize + 1)
    }
}
