//! Random and damaged days. `day(seed)` always draws the same day for the same seed, so that two
//! implementations can be compared on the same inputs.

mod builder;
mod damage;
mod play;
mod random;

use crate::format::*;
use builder::Builder;
use play::{any_number, dependence, numbers, play, taps, Shape};

pub use random::Random;

/// What append (01: post) is asked to add.
#[derive(Debug, Clone, Copy, PartialEq, Eq)]
pub struct Append {
    pub kind: u8,
    pub transaction: u16,
    pub item: u32,
    pub after: i32,
}

/// The inputs of all calls. Buffers to be written hold bytes that show whether they were.
#[derive(Debug, Clone, PartialEq, Eq)]
pub struct Day {
    pub seed: u64,
    /// Lent to append, check, the chain walk and undo; also the program's journal file.
    pub journal: Vec<u8>,
    pub table: Vec<i32>,
    /// Undo's bad list, status vector (01: marks) and output buffer (01: paper).
    pub bad: Vec<u16>,
    pub status: Vec<u8>,
    pub out: Vec<u8>,
    /// Append's record counts (01: tally) and new record.
    pub counts: [u32; 4],
    pub append: Append,
    /// The chain walk's (01: slip) transaction and list.
    pub chain_of: u16,
    pub lsns: Vec<u32>,
    /// Start's buffer and item count.
    pub fresh: Vec<u8>,
    pub items: u32,
    /// The program's table and list files.
    pub table_file: Vec<u8>,
    pub bad_file: Vec<u8>,
    /// What the builder knows of the day.
    pub known: Known,
}

/// What holds of a day by its construction.
#[derive(Debug, Clone, PartialEq, Eq)]
pub struct Known {
    /// Journal and table are as built, so they pass.
    pub intact: bool,
    /// How many transactions are active (01: open) in the journal as built.
    pub active: u32,
    /// The opening table of the journal as built.
    pub initial: Vec<i32>,
    /// The undo set (01: taken-back set) of the committed numbers in the bad list.
    pub undone: Vec<u16>,
    /// The bytes of the repaired journal (01: copy) that leaves out this set.
    pub repaired_bytes: usize,
}

/// The day of this seed. Most are small, every other one of taps; every 100th is large, every 20th
/// in between.
pub fn day(seed: u64) -> Day {
    let random = &mut Random::new(seed);
    let builder = draw_journal(random, seed);
    let mut records = builder.records.clone();
    let mut table = builder.table();
    let intact = random.percent(55) || (seed % 100 == 0 && random.percent(30));
    if !intact {
        damage_some(random, &mut records, &mut table);
    }
    let counts = draw_counts(random, &records);
    let mut journal = encode_all(&records);
    let mut whole = true;
    if seed % 101 == 3 {
        whole = false;
        journal = noise(random);
    } else if !intact && random.percent(15) {
        damage::truncate(random, &mut journal);
    } else {
        damage::lengthen(random, &mut journal);
    }
    let bad = draw_bad(random, &builder, seed);
    let chain_of = draw_chain_of(random, &builder);
    Day {
        seed,
        journal,
        status: draw_status(random),
        out: draw_out(random, builder.repaired_bytes(&bad)),
        counts,
        append: draw_append(random, &builder),
        chain_of,
        lsns: draw_lsns(random, builder.records_of(chain_of) as usize),
        fresh: draw_fresh(random),
        items: draw_items(random),
        table_file: draw_file(random, table.iter().flat_map(|v| v.to_le_bytes())),
        bad_file: draw_file(random, bad.iter().flat_map(|v| v.to_le_bytes())),
        known: Known {
            intact: intact && whole,
            active: builder.active().len() as u32,
            initial: builder.initial_table(),
            undone: builder.undo_set(&bad),
            repaired_bytes: builder.repaired_bytes(&bad),
        },
        table,
        bad,
    }
}

/// A journal that passes with its table, by the size that the seed stands for.
fn draw_journal(random: &mut Random, seed: u64) -> Builder {
    if seed % 100 == 0 {
        draw_large(random, seed / 100)
    } else if seed % 20 == 1 {
        draw_medium(random)
    } else if seed % 2 == 0 {
        let terminated = random.percent(92);
        draw_taps(random, terminated)
    } else {
        draw_small(random)
    }
}

fn draw_small(random: &mut Random) -> Builder {
    let items = random.between(1, 5);
    let transactions = random.between(1, 7);
    let shape = Shape {
        items,
        numbers: numbers(random, transactions),
        records: random.between(0, 26),
        concurrent: random.between(1, 4),
        terminated: random.percent(75),
        aborts: random.pick(&[0, 20, 50]),
        terminations: random.between(10, 40),
        hot: random.between(1, items),
        rewrites: random.pick(&[0, 20, 50, 90]),
        returns: random.pick(&[0, 10, 40]),
    };
    play(random, &shape)
}

/// Short transactions one after the other over an item or two, with many writes that leave the
/// amount as it is or bring back an earlier one.
fn draw_taps(random: &mut Random, terminated: bool) -> Builder {
    let transactions = random.between(2, 10);
    let shape = Shape {
        items: random.pick(&[1, 1, 2, 3]),
        numbers: numbers(random, transactions),
        terminated,
        aborts: random.pick(&[0, 15]),
        rewrites: random.pick(&[0, 10, 30]),
        returns: random.pick(&[10, 40]),
        ..Shape::default()
    };
    taps(random, &shape)
}

fn draw_medium(random: &mut Random) -> Builder {
    let items = random.between(1, 40);
    let transactions = random.between(5, 60);
    let numbers = numbers(random, transactions);
    let rewrites = random.pick(&[0, 10, 40, 95]);
    if random.percent(30) {
        return dependence(random, &numbers, items, 15, rewrites);
    }
    let shape = Shape {
        items,
        numbers,
        records: random.between(30, 250),
        concurrent: random.between(1, 8),
        terminated: random.percent(80),
        aborts: random.pick(&[0, 20, 60]),
        terminations: random.between(5, 30),
        hot: random.between(1, items.min(8)),
        rewrites,
        returns: random.pick(&[0, 10, 40]),
    };
    play(random, &shape)
}

fn large_shape(random: &mut Random) -> Shape {
    let all = numbers(random, MAX_TRANSACTION as usize);
    Shape {
        items: MAX_ITEMS as usize,
        numbers: all,
        records: MAX_RECORDS as usize,
        concurrent: 12,
        terminated: true,
        aborts: 15,
        terminations: 26,
        hot: 40,
        rewrites: random.pick(&[0, 20, 60]),
        returns: 10,
    }
}

/// The limits of the layout: 3,200 records, 1,024 transactions, 1,024 items.
fn draw_large(random: &mut Random, turn: u64) -> Builder {
    let mut shape = large_shape(random);
    match turn % 5 {
        0 => {}
        1 => {
            shape.terminated = false;
            shape.terminations = 10;
            shape.items = random.between(2, 60);
            shape.hot = shape.items;
        }
        2 => {
            let items = random.pick(&[1, 2, 500]);
            return dependence(random, &shape.numbers, items, 5, shape.rewrites);
        }
        3 => {
            shape.numbers.truncate(random.between(1, 30));
            shape.terminations = random.below(2);
            shape.items = random.between(1, 20);
            shape.hot = shape.items;
            shape.aborts = 40;
            shape.rewrites = 95;
        }
        _ => {
            shape.records = random.between(1_000, 3_199);
            shape.concurrent = random.between(1, 200);
            shape.terminated = random.percent(80);
        }
    }
    play(random, &shape)
}

/// One to four faults in journal and table, often several in one place.
fn damage_some(random: &mut Random, records: &mut Vec<Record>, table: &mut Vec<i32>) {
    let mut focus = random.below(records.len());
    for _ in 0..random.pick(&[1, 1, 1, 2, 3, 4]) {
        if random.percent(50) {
            focus = random.below(records.len());
        }
        match random.below(10) {
            0..=4 => damage::damage_records(random, records, focus),
            5..=7 => damage::damage_field(random, records, focus),
            8 => damage::damage_field(random, records, 0),
            _ => damage::damage_table(random, table),
        }
        if records[0].item == 0 {
            return;
        }
    }
}

/// Any bytes as a journal, some of them behind a head that fits.
fn noise(random: &mut Random) -> Vec<u8> {
    let length = random.below(130);
    let mut journal = random.bytes(length);
    if length >= RECORD_BYTES && random.percent(70) {
        let count = random.below(length / RECORD_BYTES + 1) as u32;
        let head = Record::head(count, random.between(1, 4) as u32);
        journal[..RECORD_BYTES].copy_from_slice(&head.encode());
    }
    journal
}

/// The true counts of the records, in one of ten one of them off by one.
fn draw_counts(random: &mut Random, records: &[Record]) -> [u32; 4] {
    let mut counts = [0u32; 4];
    for r in &records[1..] {
        if (READ..=ABORT).contains(&r.kind) {
            counts[r.kind as usize - 1] += 1;
        }
    }
    if random.percent(10) {
        let kind = random.below(4);
        counts[kind] = random.pick(&[
            counts[kind].wrapping_sub(1),
            counts[kind].wrapping_add(1),
            u32::MAX,
        ]);
    }
    counts
}

/// Committed numbers with repeats; in one of five also others; rarely a long list.
fn draw_bad(random: &mut Random, builder: &Builder, seed: u64) -> Vec<u16> {
    let commits = builder.commits();
    let mut bad = Vec::new();
    if seed % 1_000 == 7 && !commits.is_empty() {
        // Reaches over the part of the list file that is read; the rest is unknown.
        let length = FILE_BYTES / 2;
        bad = (0..length).map(|_| random.pick(commits)).collect();
        bad.push(0);
        return bad;
    }
    let length = match random.below(10) {
        0 | 1 => 0,
        2 => random.below(60),
        _ => random.pick(&[1, 1, 1, 2, 3, 4]),
    };
    if !commits.is_empty() {
        for _ in 0..length {
            // Early commits have the long lines of dependence.
            let early = random.below(commits.len()) / random.pick(&[1, 1, 4]);
            bad.push(commits[early]);
        }
    }
    if random.percent(20) {
        for _ in 0..random.between(1, 2) {
            let position = random.below(bad.len() + 1);
            bad.insert(position, any_number(random, builder));
        }
    }
    bad
}

fn draw_status(random: &mut Random) -> Vec<u8> {
    let length = if random.percent(90) {
        STATUS_BYTES
    } else {
        random.pick(&[0, 1, STATUS_BYTES - 1, STATUS_BYTES + 1, 2 * STATUS_BYTES])
    };
    random.bytes(length)
}

/// Exact, one byte short, longer, none.
fn draw_out(random: &mut Random, needed: usize) -> Vec<u8> {
    let length = match random.below(10) {
        0 | 1 => needed - 1,
        2 => needed + 1,
        3 => needed + random.below(100),
        4 => random.below(needed),
        5 => FILE_BYTES,
        _ => needed,
    };
    random.bytes(length)
}

/// Most often a record that may be added, else anything.
fn draw_append(random: &mut Random, builder: &Builder) -> Append {
    let transaction = any_number(random, builder);
    if random.percent(30) {
        return draw_wild_append(random, builder, transaction);
    }
    let transaction = if !builder.active().is_empty() && random.percent(70) {
        random.pick(builder.active())
    } else if random.percent(75) {
        random.between(1, MAX_TRANSACTION as usize) as u16
    } else {
        transaction.clamp(1, MAX_TRANSACTION)
    };
    let kind = random.between(1, 4) as u8;
    let reads = builder.reads_of(transaction);
    let item = match kind {
        WRITE if !reads.is_empty() && random.percent(80) => random.pick(reads),
        READ | WRITE => draw_accessed(random, builder),
        _ => 0,
    };
    let after = match kind {
        WRITE if random.percent(25) => builder.value(item),
        WRITE => random.amount(),
        _ => 0,
    };
    Append {
        kind,
        transaction,
        item,
        after,
    }
}

/// Any item, or one that an active transaction has read and may have written.
fn draw_accessed(random: &mut Random, builder: &Builder) -> u32 {
    if !builder.active().is_empty() && random.percent(50) {
        let reads = builder.reads_of(random.pick(builder.active()));
        if !reads.is_empty() {
            return random.pick(reads);
        }
    }
    random.below(builder.item_count() as usize) as u32
}

fn draw_wild_append(random: &mut Random, builder: &Builder, transaction: u16) -> Append {
    let items = builder.item_count();
    Append {
        kind: random.pick(&[0, 1, 1, 2, 2, 3, 3, 4, 4, 5, 255]),
        transaction,
        item: random.pick(&[0, 0, 0, 1, items - 1, items, items + 1, 65_536, u32::MAX]),
        after: random.pick(&[0, 0, 0, 1, -1, i32::MIN, i32::MAX]),
    }
}

fn draw_chain_of(random: &mut Random, builder: &Builder) -> u16 {
    if builder.count() > 0 && random.percent(75) {
        return random.pick(&builder.records[1..]).transaction;
    }
    any_number(random, builder)
}

/// Exact, one short, longer, none.
fn draw_lsns(random: &mut Random, needed: usize) -> Vec<u32> {
    let length = match random.below(8) {
        0 | 1 => needed.saturating_sub(1),
        2 => needed + 1,
        3 => needed + random.below(10),
        4 => random.below(needed + 1),
        _ => needed,
    };
    (0..length).map(|_| random.draw() as u32).collect()
}

fn draw_fresh(random: &mut Random) -> Vec<u8> {
    let length = random.pick(&[0, 1, 19, 20, 20, 20, 21, 40, 100]);
    random.bytes(length)
}

fn draw_items(random: &mut Random) -> u32 {
    let any = random.draw() as u32;
    let inside = random.between(1, MAX_ITEMS as usize) as u32;
    random.pick(&[
        0,
        1,
        1_023,
        1_024,
        1_025,
        65_537,
        0x0100_0001,
        u32::MAX,
        inside,
        any,
    ])
}

/// A file of whole entries; at times it ends in part of one or has lost a byte.
fn draw_file(random: &mut Random, bytes: impl Iterator<Item = u8>) -> Vec<u8> {
    let mut file: Vec<u8> = bytes.collect();
    match random.below(8) {
        0 => file.extend(random.bytes(1)),
        1 => drop(file.pop()),
        2 => {
            let part = random.between(1, 3);
            file.extend(random.bytes(part));
        }
        _ => {}
    }
    file
}

/// A journal from start on, with the records to be posted one after the other.
#[derive(Debug, Clone, PartialEq, Eq)]
pub struct Appends {
    /// The opening table; its length is the item count.
    pub initial: Vec<i32>,
    /// The bytes the journal is started in.
    pub journal: Vec<u8>,
    pub appends: Vec<Append>,
}

/// Random posts, many of which are refused. In half of the sequences there are two amounts only, so
/// that many writes leave the amount as it is.
pub fn appends(seed: u64) -> Appends {
    let random = &mut Random::new(!seed);
    let items = random.between(1, 4);
    let length = random.between(20, 20 * 40);
    let few = random.percent(50);
    let draw_amount = |random: &mut Random| {
        if few {
            random.below(2) as i32
        } else {
            random.amount()
        }
    };
    let one = |random: &mut Random| {
        let kind = random.pick(&[0, 1, 1, 1, 1, 1, 1, 2, 2, 2, 2, 2, 2, 3, 3, 4, 5]);
        let access = kind == READ || kind == WRITE || random.percent(10);
        let amount = kind == WRITE || random.percent(5);
        Append {
            kind,
            transaction: random.below(9) as u16,
            item: if access {
                random.below(items + 1) as u32
            } else {
                0
            },
            after: if amount { draw_amount(random) } else { 0 },
        }
    };
    let count = random.between(10, 120);
    Appends {
        initial: (0..items).map(|_| draw_amount(random)).collect(),
        journal: random.bytes(length),
        appends: (0..count).map(|_| one(random)).collect(),
    }
}

/// One undo call of a sequence, before names already undone are struck from its list.
#[derive(Debug, Clone, PartialEq, Eq)]
pub struct UndoCall {
    pub bad: Vec<u16>,
    pub status: Vec<u8>,
    pub out: Vec<u8>,
}

/// Incremental repair (01: cut list): a finished journal that passes, and the calls on it.
#[derive(Debug, Clone, PartialEq, Eq)]
pub struct UndoSequence {
    pub journal: Vec<u8>,
    pub table: Vec<i32>,
    pub calls: Vec<UndoCall>,
}

/// A random sequence of undo calls, refused ones included.
pub fn undo_sequence(seed: u64) -> UndoSequence {
    let random = &mut Random::new(seed ^ 0x5EED);
    let builder = if random.percent(35) {
        draw_taps(random, true)
    } else {
        draw_finished(random)
    };
    let mut journal = encode_all(&builder.records);
    damage::lengthen(random, &mut journal);
    let calls = (0..random.below(6)).map(|_| draw_call(random, &builder));
    UndoSequence {
        journal,
        table: builder.table(),
        calls: calls.collect(),
    }
}

/// Interleaved transactions, all of them ended.
fn draw_finished(random: &mut Random) -> Builder {
    let items = random.between(1, 8);
    let transactions = random.between(1, 20);
    let shape = Shape {
        items,
        numbers: numbers(random, transactions),
        records: random.between(0, 90),
        concurrent: random.between(1, 4),
        terminated: true,
        aborts: random.pick(&[0, 20, 50]),
        terminations: random.between(10, 40),
        hot: random.between(1, items),
        rewrites: random.pick(&[0, 20, 50, 90]),
        returns: random.pick(&[0, 10, 40]),
    };
    play(random, &shape)
}

fn draw_call(random: &mut Random, builder: &Builder) -> UndoCall {
    let length = if random.percent(85) {
        random.between(20 * 91, 20 * 100)
    } else {
        random.below(20 * 91)
    };
    UndoCall {
        bad: draw_bad(random, builder, 0),
        status: draw_status(random),
        out: random.bytes(length),
    }
}
