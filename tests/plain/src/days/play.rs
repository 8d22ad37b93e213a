//! Random journals that pass, played into the builder.

use super::builder::{Builder, Progress};
use super::random::Random;
use crate::format::*;

/// What a played journal looks like.
#[derive(Default)]
pub struct Shape {
    pub items: usize,
    /// The transaction numbers to use, in the order of their first records.
    pub numbers: Vec<u16>,
    /// The record count to reach; fewer if the numbers run out.
    pub records: usize,
    /// How many transactions may be active (01: open) at once.
    pub concurrent: usize,
    /// Whether every transaction has an end.
    pub terminated: bool,
    /// How many of a hundred ends are rollbacks.
    pub aborts: usize,
    /// How many of a hundred turns are ends.
    pub terminations: usize,
    /// How many items most accesses go to.
    pub hot: usize,
    /// How many of a hundred writes leave the amount as it is.
    pub rewrites: usize,
    /// How many of a hundred other writes go back to an amount that the item had.
    pub returns: usize,
}

/// Up to `count` different transaction numbers: from 1 on, down from 1,024, or anywhere.
pub fn numbers(random: &mut Random, count: usize) -> Vec<u16> {
    let mut all: Vec<u16> = (1..=MAX_TRANSACTION).collect();
    match random.below(3) {
        0 => {}
        1 => all.reverse(),
        _ => shuffle(random, &mut all),
    }
    all.truncate(count);
    all
}

fn shuffle(random: &mut Random, list: &mut [u16]) {
    for i in (1..list.len()).rev() {
        list.swap(i, random.below(i + 1));
    }
}

fn initial_table(random: &mut Random, items: usize) -> Vec<i32> {
    (0..items).map(|_| random.amount()).collect()
}

/// Interleaved transactions of the given shape.
pub fn play(random: &mut Random, shape: &Shape) -> Builder {
    let mut builder = Builder::new(&initial_table(random, shape.items));
    let mut unused = shape.numbers.iter().copied();
    while builder.count() < shape.records {
        let room = shape.records - builder.count();
        let active = builder.active().len();
        if shape.terminated && room <= active {
            terminate_one(random, &mut builder, shape);
            continue;
        }
        let begin = active == 0 || (active < shape.concurrent && random.percent(40));
        let fresh = if begin { unused.next() } else { None };
        match fresh {
            Some(transaction) if shape.terminated && room < active + 2 => {
                terminate(random, &mut builder, shape, transaction)
            }
            Some(transaction) => turn(random, &mut builder, shape, transaction),
            None if active == 0 => break,
            None => {
                let transaction = random.pick(builder.active());
                turn(random, &mut builder, shape, transaction);
            }
        }
    }
    builder.finish();
    builder
}

/// One record of a transaction: an access if one is found that the rules allow, or its end.
fn turn(random: &mut Random, builder: &mut Builder, shape: &Shape, transaction: u16) {
    if random.percent(shape.terminations) {
        return terminate(random, builder, shape, transaction);
    }
    for _ in 0..6 {
        let reads = builder.reads_of(transaction);
        if !reads.is_empty() && random.percent(50) {
            let item = random.pick(reads);
            if builder.may_write(transaction, item) {
                let after = draw_after(random, builder, shape, transaction, item);
                return builder.write(transaction, item, after);
            }
        }
        let item = any_item(random, shape);
        if builder.may_read(transaction, item) {
            return builder.read(transaction, item);
        }
    }
    terminate(random, builder, shape, transaction);
}

/// The amount that is there; the one that the transaction found, or the opening amount; one that
/// differs in a single bit; any.
fn draw_after(
    random: &mut Random,
    builder: &Builder,
    shape: &Shape,
    transaction: u16,
    item: u32,
) -> i32 {
    if random.percent(shape.rewrites) {
        builder.value(item)
    } else if random.percent(shape.returns) {
        match builder.found(transaction, item) {
            found if found != builder.value(item) => found,
            _ => builder.initial(item),
        }
    } else if random.percent(30) {
        builder.value(item) ^ 1 << random.below(32)
    } else {
        random.amount()
    }
}

fn any_item(random: &mut Random, shape: &Shape) -> u32 {
    let limit = if random.percent(70) {
        shape.hot
    } else {
        shape.items
    };
    random.below(limit) as u32
}

fn terminate_one(random: &mut Random, builder: &mut Builder, shape: &Shape) {
    let transaction = random.pick(builder.active());
    terminate(random, builder, shape, transaction);
}

fn terminate(random: &mut Random, builder: &mut Builder, shape: &Shape, transaction: u16) {
    if random.percent(shape.aborts) {
        builder.abort(transaction);
    } else {
        builder.commit(transaction);
    }
}

/// Transactions of the given shape, one after the other: each reads an item, reads and writes it up
/// to four times more, and ends; the last one only if all do. Some change no amount at all.
pub fn taps(random: &mut Random, shape: &Shape) -> Builder {
    let mut builder = Builder::new(&initial_table(random, shape.items));
    for &transaction in &shape.numbers {
        let item = random.below(shape.items) as u32;
        let idle = random.percent(35);
        builder.read(transaction, item);
        for _ in 0..random.below(5) {
            if random.percent(30) {
                builder.read(transaction, item);
            } else if idle {
                builder.write(transaction, item, builder.value(item));
            } else {
                let after = draw_after(random, &builder, shape, transaction, item);
                builder.write(transaction, item, after);
            }
        }
        if shape.terminated || shape.numbers.last() != Some(&transaction) {
            terminate(random, &mut builder, shape, transaction);
        }
    }
    builder.finish();
    builder
}

/// A long chain of dependence: each transaction reads what the one before wrote, writes on, and
/// commits; some roll back between, and some write the amount that is there. The chain passes
/// through the items in turn.
pub fn dependence(
    random: &mut Random,
    numbers: &[u16],
    items: usize,
    aborts: usize,
    rewrites: usize,
) -> Builder {
    let mut builder = Builder::new(&initial_table(random, items));
    let mut from = 0;
    for &transaction in numbers {
        let to = random.below(items) as u32;
        if builder.count() + 4 > MAX_RECORDS as usize {
            break;
        }
        builder.read(transaction, from);
        if to != from {
            builder.read(transaction, to);
        }
        let after = if random.percent(rewrites) {
            builder.value(to)
        } else {
            random.amount()
        };
        builder.write(transaction, to, after);
        if random.percent(aborts) {
            builder.abort(transaction);
        } else {
            builder.commit(transaction);
            from = to;
        }
    }
    builder.finish();
    builder
}

/// A committed, rolled-back, active or unused number, or one outside the numbering.
pub fn any_number(random: &mut Random, builder: &Builder) -> u16 {
    let used = builder.records[1..].iter().map(|r| r.transaction);
    match random.below(8) {
        0 => 0,
        1 => random.pick(&[MAX_TRANSACTION, MAX_TRANSACTION + 1, u16::MAX]),
        2 => random.between(1, MAX_TRANSACTION as usize) as u16,
        3 => {
            let aborted: Vec<u16> = used
                .filter(|&t| builder.progress(t) == Progress::Aborted)
                .collect();
            aborted.first().copied().unwrap_or(1)
        }
        _ => {
            let used: Vec<u16> = used.collect();
            if used.is_empty() {
                1
            } else {
                random.pick(&used)
            }
        }
    }
}
