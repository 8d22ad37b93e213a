//! Damage to journals and tables. Record damage keeps the chains right, so that the rules behind
//! the chain show; byte damage hits one field and nothing else.

use super::random::{Random, EXTREMES};
use crate::format::*;

/// One fault in the records, with fields put back into the layout; chains and count follow.
pub fn damage_records(random: &mut Random, records: &mut Vec<Record>, focus: usize) {
    let count = records.len() - 1;
    if count == 0 {
        insert_record(random, records, 1);
    } else {
        let i = focus.clamp(1, count);
        match random.below(12) {
            0 => records[i].kind = random.between(1, 4) as u8,
            1 => records[i].transaction = random.pick(&records[1..]).transaction,
            2 => records[i].item = random.below(records[0].item as usize) as u32,
            3 => records[i].before = random.amount(),
            4 => records[i].after = random.amount(),
            5 => drop(records.remove(i)),
            6 => records.insert(i, records[i]),
            7 => records.swap(i, random.between(1, count)),
            8 => records[i].before = records[i].before.wrapping_add(1),
            // The amount that was there is written, or another one as if it had been there.
            9 => records[i].after = records[i].before,
            10 => {
                records[i].before = random.amount();
                records[i].after = records[i].before;
            }
            _ => insert_record(random, records, i),
        }
    }
    records.iter_mut().skip(1).for_each(into_layout);
    relink(records);
}

/// Puts in a read, write or end by a transaction that may not be there yet.
fn insert_record(random: &mut Random, records: &mut Vec<Record>, i: usize) {
    let transaction = if random.percent(60) && records.len() > 1 {
        random.pick(&records[1..]).transaction
    } else {
        random.between(1, 6) as u16
    };
    let record = Record {
        kind: random.between(1, 4) as u8,
        transaction,
        item: random.below(records[0].item as usize) as u32,
        before: random.amount(),
        after: random.amount(),
        ..Record::default()
    };
    records.insert(i, record);
}

/// Zero where the layout has zero.
fn into_layout(record: &mut Record) {
    if !record.is_write() {
        record.before = 0;
        record.after = 0;
    }
    if record.is_termination() {
        record.item = 0;
    }
}

/// Works out every next and the record count again.
fn relink(records: &mut [Record]) {
    let mut later = vec![0; u16::MAX as usize + 1];
    for i in (1..records.len()).rev() {
        let slot = &mut later[records[i].transaction as usize];
        records[i].next = *slot;
        *slot = i as u32;
    }
    records[0].next = records.len() as u32 - 1;
}

/// One field of the head or of a record set to another value; chains do not follow.
pub fn damage_field(random: &mut Random, records: &mut [Record], focus: usize) {
    let i = focus.min(records.len() - 1);
    if i == 0 {
        damage_head(random, &mut records[0]);
    } else {
        damage_record(random, records, i);
    }
}

fn damage_head(random: &mut Random, head: &mut Record) {
    match random.below(10) {
        0 => head.kind = random.between(1, 255) as u8,
        1 => head.zero = random.between(1, 255) as u8,
        2 => head.transaction = random.pick(&[1, 256, 1_024, u16::MAX]),
        3 => head.before = random.pick(&EXTREMES),
        4 => head.after = random.pick(&EXTREMES),
        5 => head.item = random.pick(&[0, 1, 2, MAX_ITEMS, MAX_ITEMS + 1, u32::MAX]),
        6 => head.item = random.pick(&[head.item.wrapping_add(1), head.item.wrapping_sub(1)]),
        7 => head.next = random.pick(&[0, MAX_RECORDS, MAX_RECORDS + 1, 65_536, u32::MAX]),
        8 => head.next = head.next.wrapping_add(1),
        _ => head.next = head.next.saturating_sub(1),
    }
}

fn damage_record(random: &mut Random, records: &mut [Record], i: usize) {
    let items = records[0].item;
    let count = records.len() as u32 - 1;
    let other = random.pick(&records[1..]).transaction;
    let record = &mut records[i];
    match random.below(7) {
        0 => record.kind = random.pick(&[0, 1, 2, 3, 4, 5, 255]),
        1 => record.zero = random.pick(&[1, 2, 128, 255]),
        2 => {
            let outside = random.pick(&[0, 1, MAX_TRANSACTION, MAX_TRANSACTION + 1, u16::MAX]);
            record.transaction = random.pick(&[other, outside]);
        }
        3 => record.next = other_next(random, record.next, i as u32, count),
        4 => {
            let near = [0, items.wrapping_sub(1), items, items.wrapping_add(1)];
            let far = [record.item.wrapping_add(65_536), u32::MAX];
            let near_or_far: &[u32] = if random.percent(50) { &near } else { &far };
            record.item = random.pick(near_or_far);
        }
        5 => record.before = other_amount(random, record.before),
        _ => record.after = other_amount(random, record.after),
    }
}

fn other_next(random: &mut Random, next: u32, i: u32, count: u32) -> u32 {
    random.pick(&[
        0,
        i,
        i + 1,
        i - 1,
        next.wrapping_add(1),
        next.wrapping_sub(1),
        next.wrapping_add(65_536),
        count,
        count + 1,
        u32::MAX,
    ])
}

fn other_amount(random: &mut Random, amount: i32) -> i32 {
    let extreme = random.pick(&EXTREMES);
    random.pick(&[
        amount.wrapping_add(1),
        amount.wrapping_sub(1),
        amount.wrapping_neg(),
        extreme,
    ])
}

/// Cuts the journal: to nothing, around the head, by one byte, or anywhere.
pub fn truncate(random: &mut Random, journal: &mut Vec<u8>) {
    let length = match random.below(6) {
        0 => 0,
        1 => RECORD_BYTES - 1,
        2 => RECORD_BYTES,
        3 => journal.len().saturating_sub(1),
        4 => journal.len().saturating_sub(RECORD_BYTES),
        _ => random.below(journal.len() + 1),
    };
    journal.truncate(length);
}

/// Bytes behind the last record: any bytes, or some that look like records.
pub fn lengthen(random: &mut Random, journal: &mut Vec<u8>) {
    let length = match random.below(10) {
        0 => 0,
        1 => 1,
        2 => RECORD_BYTES - 1,
        3 => random.below(100),
        4 => RECORD_BYTES + 1,
        5 => 2 * RECORD_BYTES,
        _ => RECORD_BYTES,
    };
    let behind = if random.percent(30) && journal.len() >= 2 * length {
        journal[journal.len() - length..].to_vec()
    } else {
        random.bytes(length)
    };
    journal.extend(behind);
}

/// A wrong length or some wrong amounts.
pub fn damage_table(random: &mut Random, table: &mut Vec<i32>) {
    match random.below(6) {
        0 => table.clear(),
        1 => drop(table.pop()),
        2 => table.push(random.amount()),
        _ => {
            for _ in 0..random.between(1, 3) {
                if !table.is_empty() {
                    let item = random.below(table.len());
                    table[item] = other_amount(random, table[item]);
                }
            }
        }
    }
}
