//! Days to measure on. Each passes, has no transaction that is active at the end, and is built by
//! appends; a record that is refused is left out.

use crate::linear;
use plain::days::{Append, Random};
use plain::format::{ABORT, COMMIT, READ, RECORD_BYTES, WRITE};

pub const SIZES: [usize; 4] = [400, 800, 1_600, 3_200];

#[derive(Debug, Clone, Copy, PartialEq, Eq)]
pub enum Shape {
    /// Sixteen transactions side by side, in turn, over 128 items at 400 records and up to 1,024
    /// at 3,200; one in ten aborts.
    Interleaved,
    /// One transaction over as many items.
    Single,
    /// Each transaction reads what the one before wrote.
    Chain,
    /// One item with some 300 reads by 98 transactions between two writes.
    Readers,
}

impl Shape {
    pub fn name(self) -> &'static str {
        match self {
            Shape::Interleaved => "interleaved",
            Shape::Single => "one transaction",
            Shape::Chain => "dependency chain",
            Shape::Readers => "many readers",
        }
    }
}

pub const SHAPES: [Shape; 4] = [
    Shape::Interleaved,
    Shape::Single,
    Shape::Chain,
    Shape::Readers,
];

/// The loans of append before a call, and the record that it adds.
#[derive(Debug, Clone)]
pub struct Loans {
    pub journal: Vec<u8>,
    pub table: Vec<i32>,
    pub counts: [u32; 4],
    pub append: Append,
}

#[derive(Debug, Clone)]
pub struct Day {
    pub journal: Vec<u8>,
    pub table: Vec<i32>,
    /// Some transactions to undo, by shape: one in twenty of the committed ones (interleaved and
    /// readers), the only one (single), the first one, which all others depend on (chain).
    pub bad: Vec<u16>,
    /// The day before its last record.
    pub before_last: Loans,
}

/// A day of this shape with this many records.
pub fn day(shape: Shape, records: usize, seed: u64) -> Day {
    let items = match shape {
        Shape::Interleaved | Shape::Single => records as u32 * 8 / 25,
        Shape::Chain | Shape::Readers => 1_024,
    };
    let mut builder = Builder::new(records, items, seed);
    match shape {
        Shape::Interleaved => interleaved(&mut builder),
        Shape::Single => single(&mut builder),
        Shape::Chain => chain(&mut builder),
        Shape::Readers => readers(&mut builder),
    }
    assert_eq!(builder.room(), 0);
    let one_in_twenty = || builder.commits.iter().skip(7).step_by(20).copied();
    Day {
        bad: match shape {
            Shape::Interleaved => one_in_twenty().collect(),
            Shape::Readers => one_in_twenty().filter(|t| t % 99 != 1).collect(),
            Shape::Single | Shape::Chain => vec![1],
        },
        journal: builder.journal,
        table: builder.table,
        before_last: builder.before_last.unwrap(),
    }
}

struct Builder {
    random: Random,
    journal: Vec<u8>,
    table: Vec<i32>,
    counts: [u32; 4],
    commits: Vec<u16>,
    before_last: Option<Loans>,
}

impl Builder {
    fn new(records: usize, items: u32, seed: u64) -> Builder {
        let mut random = Random::new(seed);
        let table = (0..items).map(|_| random.amount()).collect();
        let mut journal = vec![0; RECORD_BYTES * (records + 1)];
        plain::start(&mut journal, items).unwrap();
        Builder {
            random,
            journal,
            table,
            counts: [0; 4],
            commits: Vec::new(),
            before_last: None,
        }
    }

    /// How many records are still to be added.
    fn room(&self) -> usize {
        self.journal.len() / RECORD_BYTES - 1 - self.counts.iter().sum::<u32>() as usize
    }

    /// Adds a record if it is not refused. A write has any amount, at times the one that is there.
    fn add(&mut self, kind: u8, transaction: u16, item: u32) -> bool {
        let after = if kind == WRITE {
            self.random.amount()
        } else {
            0
        };
        self.add_after(kind, transaction, item, after)
    }

    /// Adds a write of another amount than the item has, so that it feeds.
    fn change(&mut self, transaction: u16, item: u32) {
        let mut after = self.random.amount();
        if after == self.table[item as usize] {
            after ^= 1;
        }
        assert!(self.add_after(WRITE, transaction, item, after));
    }

    fn add_after(&mut self, kind: u8, transaction: u16, item: u32, after: i32) -> bool {
        let append = Append {
            kind,
            transaction,
            item,
            after,
        };
        let before = (self.room() == 1).then(|| Loans {
            journal: self.journal.clone(),
            table: self.table.clone(),
            counts: self.counts,
            append,
        });
        let added = linear::append(
            &mut self.journal,
            &mut self.table,
            &mut self.counts,
            kind,
            transaction,
            item,
            after,
        );
        if added.is_err() {
            return false;
        }
        if kind == COMMIT {
            self.commits.push(transaction);
        }
        self.before_last = before;
        true
    }

    fn add_all(&mut self, transaction: u16, records: &[(u8, u32)]) {
        for &(kind, item) in records {
            assert!(self.add(kind, transaction, item));
        }
    }

    fn any_item(&mut self) -> u32 {
        self.random.below(self.table.len()) as u32
    }
}

/// A transaction in turn: what it has read, and how many records it has to go before its end.
struct Turn {
    transaction: u16,
    reads: Vec<u32>,
    left: usize,
}

fn interleaved(builder: &mut Builder) {
    let mut turns: Vec<Turn> = Vec::new();
    let mut begun = 0;
    let mut turn = 0;
    while builder.room() > turns.len() {
        turn = (turn + 1) % 16;
        if turn >= turns.len() {
            begun += 1;
            turn = turns.len();
            turns.push(Turn {
                transaction: begun,
                reads: Vec::new(),
                left: builder.random.between(4, 12),
            });
        } else if turns[turn].left == 0 {
            let ended = turns.remove(turn).transaction;
            let end = if builder.random.percent(10) {
                ABORT
            } else {
                COMMIT
            };
            builder.add_all(ended, &[(end, 0)]);
        } else {
            go_on(builder, &mut turns[turn]);
        }
    }
    for turn in turns {
        builder.add_all(turn.transaction, &[(COMMIT, 0)]);
    }
}

/// A read, or a write of what was read.
fn go_on(builder: &mut Builder, turn: &mut Turn) {
    turn.left -= 1;
    if builder.random.percent(50) && !turn.reads.is_empty() {
        let item = builder.random.pick(&turn.reads);
        builder.add(WRITE, turn.transaction, item);
    } else {
        let item = builder.any_item();
        if builder.add(READ, turn.transaction, item) {
            turn.reads.push(item);
        }
    }
}

fn single(builder: &mut Builder) {
    let mut reads = Vec::new();
    while builder.room() > 1 {
        if builder.random.percent(50) && !reads.is_empty() {
            let item = builder.random.pick(&reads);
            builder.add_all(1, &[(WRITE, item)]);
        } else {
            let item = builder.any_item();
            builder.add_all(1, &[(READ, item)]);
            reads.push(item);
        }
    }
    builder.add_all(1, &[(COMMIT, 0)]);
}

fn chain(builder: &mut Builder) {
    for transaction in 1..=builder.room() as u16 / 4 {
        let item = u32::from(transaction);
        builder.add_all(transaction, &[(READ, item - 1), (READ, item)]);
        builder.change(transaction, item);
        builder.add_all(transaction, &[(COMMIT, 0)]);
    }
}

/// Runs of 400 records: a transaction that writes item 0, then 98 that read it thrice, seven of
/// them at a time.
fn readers(builder: &mut Builder) {
    let mut writer = 1;
    while builder.room() > 0 {
        let own = builder.random.between(1, 1_000) as u32;
        let own_writes = [own, own + 1].map(|item| [(READ, item), (WRITE, item)]);
        builder.add_all(writer, &[(READ, 0), (WRITE, 0)]);
        builder.add_all(writer, &own_writes.concat());
        builder.add_all(writer, &[(READ, 0), (COMMIT, 0)]);
        for first in (writer + 1..writer + 99).step_by(7) {
            for record in [(READ, 0), (READ, 0), (READ, 0), (COMMIT, 0)] {
                for reader in first..first + 7 {
                    builder.add_all(reader, &[record]);
                }
            }
        }
        writer += 99;
    }
}
