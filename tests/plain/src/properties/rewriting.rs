//! A rewrite of the same amount (02, request 3): what feeds a read, and other rules, which the
//! days drawn must tell from it.

use super::history::{is_rewrite, History, Rule, CHANGED};
use crate::compare::{repair, Implementation};
use crate::days::{undo_sequence, Random, UndoSequence};
use crate::format::{Record, ABORT, READ, WRITE};

/// With every rewrite struck out of the journal the same transactions are undone and the same
/// table is left. The copy has each rewrite of a kept transaction and is the same without them.
/// A case is a list, on a journal with a rewrite.
pub fn rewrites_draw_nobody_in(calls: &impl Implementation, seed: u64) -> u64 {
    let UndoSequence {
        journal,
        table,
        calls: lists,
    } = undo_sequence(seed);
    let history = History::of(&journal);
    if !history.records.iter().any(is_rewrite) {
        return 0;
    }
    let commits = history.commits();
    let changes = history.without_rewrites();
    let mut tried = 0;
    for mut bad in lists.into_iter().map(|call| call.bad) {
        bad.retain(|name| commits.contains(name));
        let found = repair(calls, &journal, &table, &bad);
        let expected = repair(calls, &changes, &table, &bad);
        assert_eq!(found.undone, expected.undone);
        assert_eq!(found.surviving, expected.surviving);
        assert_eq!(found.table, expected.table);
        let copy = History::of(&found.repaired);
        assert_eq!(copy.without_rewrites(), expected.repaired);
        let kept = |r: &&Record| is_rewrite(r) && found.surviving.contains(&r.transaction);
        let kept = history.records.iter().filter(kept).count();
        let copied = copy.records.iter().filter(|r| is_rewrite(r)).count();
        assert_eq!(copied, kept);
        tried += 1;
    }
    tried
}

/// Each read is fed by the write that request 3 names, in the journal and after removal of some
/// transactions; and its item stands at what that write left, since a write that does not feed
/// leaves the amount as it was. `feeding` answers as `crate::removal` does. A case is a read.
pub fn reads_are_fed_by_changes(
    feeding: impl Fn(&[u8], &[u16]) -> Vec<(u32, Option<u32>)>,
    seed: u64,
) -> u64 {
    let UndoSequence { journal, table, .. } = undo_sequence(seed);
    let history = History::of(&journal);
    let initial = history.initial(&table);
    let fed = feeding(&journal, &[]);
    assert_eq!(fed, history.sources(CHANGED));
    let seen = amounts_read(&history, &initial);
    for (&(read, write), seen) in fed.iter().zip(seen) {
        let opening = initial[history.record(read).item as usize];
        let left = write.map_or(opening, |write| history.record(write).after);
        assert_eq!(left, seen);
    }
    let mut numbers: Vec<u16> = history.records[1..].iter().map(|r| r.transaction).collect();
    numbers.sort();
    numbers.dedup();
    let random = &mut Random::new(seed);
    for _ in 0..4 {
        let mut removed = numbers.clone();
        removed.retain(|_| random.percent(30));
        let expected = history.without(&removed).sources(CHANGED);
        assert_eq!(feeding(&journal, &removed), expected);
    }
    fed.len() as u64
}

/// What the item of each read stands at (01: standing amount).
fn amounts_read(history: &History, initial: &[i32]) -> Vec<i32> {
    let mut values = initial.to_vec();
    let mut seen = Vec::new();
    for (i, r) in history.records.iter().enumerate().skip(1) {
        match r.kind {
            READ => seen.push(values[r.item as usize]),
            WRITE => values[r.item as usize] = r.after,
            ABORT => {
                let own = |w: &&Record| w.is_write() && w.transaction == r.transaction;
                let back = history.records[1..i].iter().rev().filter(own);
                back.for_each(|w| values[w.item as usize] = w.before);
            }
            _ => {}
        }
    }
    seen
}

/// Every write feeds: document 01 without the request.
pub const EVERY_WRITE: Rule = |_, _, _| true;

/// Only a write of a higher amount feeds.
pub const RISES: Rule = |history, _, write| {
    let write = history.record(write);
    write.after > write.before
};

/// Only a write of a lower amount feeds.
pub const FALLS: Rule = |history, _, write| {
    let write = history.record(write);
    write.after < write.before
};

/// A write of any other amount than the opening one feeds.
pub const NOT_THE_OPENING: Rule = |history, _, write| {
    let write = history.record(write);
    let mut writes = history.records.iter().filter(|r| r.is_write());
    let first = writes.find(|r| r.item == write.item);
    first.is_some_and(|first| write.after != first.before)
};

/// A write of any other amount than the write ahead of it feeds, rolled back or not.
pub const NOT_THE_LAST_WRITTEN: Rule = |history, _, lsn| {
    let write = history.record(lsn);
    let ahead = history.records[..lsn as usize].iter().rev();
    let last = ahead
        .filter(|r| r.is_write())
        .find(|r| r.item == write.item);
    write.after != last.map_or(write.before, |last| last.after)
};

/// A transaction that leaves the amount as it found it feeds no read.
pub const NET_CHANGES: Rule = |history, read, write| {
    let own = own_writes(history, read, write);
    own[0].before != own[own.len() - 1].after
};

/// A write of any other amount than its transaction found feeds.
pub const NOT_THE_FOUND: Rule = |history, read, write| {
    let own = own_writes(history, read, write);
    own[0].before != history.record(write).after
};

/// The writes below the read of the same item by the same transaction as this one.
fn own_writes(history: &History, read: u32, write: u32) -> Vec<&Record> {
    let write = history.record(write);
    let own =
        |r: &&Record| r.is_write() && r.item == write.item && r.transaction == write.transaction;
    history.records[..read as usize]
        .iter()
        .filter(own)
        .collect()
}

/// The highest write feeds if it changed the amount, and else no write does.
pub const NOTHING_BEHIND_A_REWRITE: Rule = |history, read, write| {
    let above = &history.records[write as usize + 1..read as usize];
    let reader = history.record(read);
    let committed = |t: u16| {
        let below = &history.records[..read as usize];
        below.iter().any(|r| r.is_commit() && r.transaction == t)
    };
    let hides = |r: &Record| {
        r.is_write()
            && r.item == reader.item
            && (r.transaction == reader.transaction || committed(r.transaction))
    };
    CHANGED(history, read, write) && !above.iter().any(hides)
};

/// The lower halves of before and after are compared.
pub const LOWER_HALVES: Rule = |history, _, write| {
    let write = history.record(write);
    write.after as i16 != write.before as i16
};

/// A rewrite feeds the later reads of its own transaction.
pub const OWN_REWRITES: Rule = |history, read, write| {
    let own = history.record(read).transaction == history.record(write).transaction;
    own || CHANGED(history, read, write)
};

/// Rules by which other transactions are undone on some days.
pub const OTHER_SETS: [(&str, Rule); 8] = [
    ("every write feeds", EVERY_WRITE),
    ("only rises feed", RISES),
    ("only falls feed", FALLS),
    ("held against the opening amount", NOT_THE_OPENING),
    ("held against the last amount written", NOT_THE_LAST_WRITTEN),
    ("only net changes feed", NET_CHANGES),
    ("nothing feeds behind a rewrite", NOTHING_BEHIND_A_REWRITE),
    ("lower halves compared", LOWER_HALVES),
];

/// Rules by which other writes feed on some days, and the same transactions are undone on all.
pub const OTHER_WRITES: [(&str, Rule); 2] = [
    ("own rewrites feed", OWN_REWRITES),
    ("held against the amount found", NOT_THE_FOUND),
];

/// What some accepted take-backs had of rewrites.
#[derive(Debug, Default, Clone)]
pub struct Rewrites {
    pub take_backs: u64,
    /// Rewrites by surviving transactions, all in the copy; by undone and by aborted ones.
    pub surviving: u64,
    pub undone: u64,
    pub aborted: u64,
    /// Reads behind a rewrite: by the reader itself, by another transaction; and, of both, those fed
    /// by a write behind it and those fed by the opening amount.
    pub own: u64,
    pub others: u64,
    pub hidden: u64,
    pub opening: u64,
    /// Take-backs that undo other transactions by each of `OTHER_SETS`.
    pub other_sets: [u64; OTHER_SETS.len()],
    /// Take-backs with a read fed by another write by each of `OTHER_WRITES`.
    pub other_writes: [u64; OTHER_WRITES.len()],
}

impl Rewrites {
    /// An accepted take-back: the journal, the list and the status vector that it left.
    pub fn note(&mut self, journal: &[u8], bad: &[u16], status: &[u8]) {
        let history = History::of(journal);
        self.take_backs += 1;
        for r in history.records.iter().filter(|r| is_rewrite(r)) {
            match status[r.transaction as usize] {
                1 => self.surviving += 1,
                2 => self.undone += 1,
                _ => self.aborted += 1,
            }
        }
        let fed = history.sources(CHANGED);
        for (&(read, write), (_, last)) in fed.iter().zip(history.sources(EVERY_WRITE)) {
            let Some(rewrite) = last.filter(|_| last != write) else {
                continue;
            };
            let own = history.record(read).transaction == history.record(rewrite).transaction;
            self.own += u64::from(own);
            self.others += u64::from(!own);
            self.hidden += u64::from(write.is_some());
            self.opening += u64::from(write.is_none());
        }
        let undone = history.undo_set(bad, CHANGED);
        for (told, (_, rule)) in self.other_sets.iter_mut().zip(OTHER_SETS) {
            *told += u64::from(history.undo_set(bad, rule) != undone);
        }
        for (told, (name, rule)) in self.other_writes.iter_mut().zip(OTHER_WRITES) {
            assert_eq!(history.undo_set(bad, rule), undone, "{name}");
            *told += u64::from(history.sources(rule) != fed);
        }
        // The request takes back fewer, never others.
        let before = history.undo_set(bad, EVERY_WRITE);
        assert!(undone.iter().all(|t| before.contains(t)));
    }

    pub fn add(&mut self, other: Rewrites) {
        self.take_backs += other.take_backs;
        self.surviving += other.surviving;
        self.undone += other.undone;
        self.aborted += other.aborted;
        self.own += other.own;
        self.others += other.others;
        self.hidden += other.hidden;
        self.opening += other.opening;
        let sets = self.other_sets.iter_mut().zip(other.other_sets);
        let writes = self.other_writes.iter_mut().zip(other.other_writes);
        sets.chain(writes).for_each(|(told, more)| *told += more);
    }

    /// The fewest of any kind.
    pub fn fewest(&self) -> u64 {
        let kinds = [
            self.surviving,
            self.undone,
            self.aborted,
            self.own,
            self.others,
            self.hidden,
            self.opening,
        ];
        let told = self.other_sets.iter().chain(&self.other_writes);
        kinds.iter().chain(told).copied().min().unwrap()
    }

    pub fn lines(&self) -> String {
        let Rewrites {
            take_backs,
            surviving,
            undone,
            aborted,
            own,
            others,
            hidden,
            opening,
            ..
        } = self;
        let mut lines = format!(
            "{take_backs} take-backs; rewrites: {surviving} kept, {undone} taken back, {aborted} dropped\n\
             reads behind a rewrite: {own} an own, {others} another's; \
             {hidden} fed by a write, {opening} by the opening amount\n"
        );
        for (told, (name, _)) in self.other_sets.iter().zip(OTHER_SETS) {
            lines += &format!("{name}: {told} undo others\n");
        }
        for (told, (name, _)) in self.other_writes.iter().zip(OTHER_WRITES) {
            lines += &format!("{name}: {told} have a read fed by another write\n");
        }
        lines
    }
}
