//! A journal that passes, seen through its records alone. Only the layout and the links
//! (`crate::format`) are shared with the plain calls.

use crate::format::*;

/// Whether an earlier write of its item may feed a read: history, read, write. The highest write
/// does for which this holds and whose transaction is the reader or has already committed.
pub type Rule = fn(&History, u32, u32) -> bool;

/// Documents 01 and 02, request 3: a write that changed the amount feeds.
pub const CHANGED: Rule = |history, _, write| {
    let write = history.record(write);
    write.after != write.before
};

pub struct History {
    /// Head first, so that `records[i]` is record i.
    pub records: Vec<Record>,
}

/// The bytes up to the last record that the head counts.
pub fn whole_length(journal: &[u8]) -> usize {
    RECORD_BYTES * (Record::decode(journal).next as usize + 1)
}

/// A write of the amount that was there.
pub fn is_rewrite(r: &Record) -> bool {
    r.is_write() && r.after == r.before
}

impl History {
    pub fn of(journal: &[u8]) -> History {
        let whole = &journal[..whole_length(journal)];
        History {
            records: whole.chunks(RECORD_BYTES).map(Record::decode).collect(),
        }
    }

    /// The committed transactions, rising.
    pub fn commits(&self) -> Vec<u16> {
        let commits = self.records[1..].iter().filter(|r| r.is_commit());
        let mut commits: Vec<u16> = commits.map(|r| r.transaction).collect();
        commits.sort();
        commits
    }

    pub fn aborts(&self) -> usize {
        self.records[1..].iter().filter(|r| r.is_abort()).count()
    }

    /// How many records of each kind there are.
    pub fn counts(&self) -> [u32; 4] {
        let mut counts = [0; 4];
        for r in &self.records[1..] {
            counts[r.kind as usize - 1] += 1;
        }
        counts
    }

    /// The opening table: the before of each item's first write, or the table's amount.
    pub fn initial(&self, table: &[i32]) -> Vec<i32> {
        let mut initial = table.to_vec();
        for r in self.records[1..].iter().rev() {
            if r.is_write() {
                initial[r.item as usize] = r.before;
            }
        }
        initial
    }

    pub fn record(&self, lsn: u32) -> &Record {
        &self.records[lsn as usize]
    }

    /// Each read with the write that feeds it by this rule, or `None` for the opening amount. One
    /// pass forward: each item has its writes so far, and a read by T is fed by the last of them
    /// that the rule allows and whose transaction is T or has already committed.
    pub fn sources(&self, rule: Rule) -> Vec<(u32, Option<u32>)> {
        let mut writes = vec![Vec::new(); self.records[0].item as usize];
        let mut committed = Vec::new();
        let mut sources = Vec::new();
        for (lsn, r) in (0..).zip(&self.records).skip(1) {
            match r.kind {
                READ => {
                    let seen = |t: u16| t == r.transaction || committed.contains(&t);
                    let feeds = |&&write: &&u32| {
                        seen(self.record(write).transaction) && rule(self, lsn, write)
                    };
                    let of_item: &Vec<u32> = &writes[r.item as usize];
                    sources.push((lsn, of_item.iter().rev().find(feeds).copied()));
                }
                WRITE => writes[r.item as usize].push(lsn),
                COMMIT => committed.push(r.transaction),
                _ => {}
            }
        }
        sources
    }

    /// Each committed transaction with a committed one that it reads from.
    pub fn dependencies(&self, rule: Rule) -> Vec<(u16, u16)> {
        let by = |lsn: u32| self.record(lsn).transaction;
        let pair = |(read, write): (u32, Option<u32>)| Some((by(read), by(write?)));
        let mut pairs: Vec<_> = self.sources(rule).into_iter().filter_map(pair).collect();
        let commits = self.commits();
        pairs.retain(|(reader, writer)| reader != writer && commits.contains(reader));
        pairs.sort();
        pairs.dedup();
        pairs
    }

    /// The committed transactions that a list of such and the reads-from by this rule draw in,
    /// rising.
    pub fn undo_set(&self, bad: &[u16], rule: Rule) -> Vec<u16> {
        let mut undone = bad.to_vec();
        undone.sort();
        undone.dedup();
        let pairs = self.dependencies(rule);
        let mut settled = false;
        while !settled {
            settled = true;
            for (reader, writer) in &pairs {
                if undone.contains(writer) && !undone.contains(reader) {
                    undone.push(*reader);
                    settled = false;
                }
            }
        }
        undone.sort();
        undone
    }

    /// The same history with these transactions' records struck out; all others keep their numbers.
    pub fn without(&self, removed: &[u16]) -> History {
        let mut records = self.records.clone();
        for r in records[1..].iter_mut() {
            if removed.contains(&r.transaction) {
                *r = Record::default();
            }
        }
        History { records }
    }

    /// The journal of just these transactions' records, renumbered and chained anew.
    pub fn only(&self, kept: &[u16]) -> Vec<u8> {
        self.journal_of(|r| kept.contains(&r.transaction))
    }

    /// The journal without the writes of the amount that was there, renumbered and chained anew.
    pub fn without_rewrites(&self) -> Vec<u8> {
        self.journal_of(|r| !is_rewrite(r))
    }

    fn journal_of(&self, stays: impl Fn(&Record) -> bool) -> Vec<u8> {
        let mut records = vec![Record::head(0, self.records[0].item)];
        records.extend(self.records[1..].iter().filter(|r| stays(r)));
        records[0].next = records.len() as u32 - 1;
        for i in 1..records.len() {
            records[i].next = next_link(&records, i);
        }
        encode_all(&records)
    }
}
