//! Journals written by hand, and short forms of the calls.

use crate::CALLS;
use plain::compare::{Implementation, Repair};
use plain::{Refusal, Undone};

/// The example of document 01, "The program's day", byte for byte.
#[rustfmt::skip]
pub const EXAMPLE: [u8; 240] = [
    // head: 11 records, 3 items
    0x00, 0x00, 0x00, 0x00, 0x0B, 0x00, 0x00, 0x00, 0x03, 0x00, 0x00, 0x00, 0x00, 0x00, 0x00, 0x00, 0x00, 0x00, 0x00, 0x00,
    // 1: transaction 1 reads item 0
    0x01, 0x00, 0x01, 0x00, 0x02, 0x00, 0x00, 0x00, 0x00, 0x00, 0x00, 0x00, 0x00, 0x00, 0x00, 0x00, 0x00, 0x00, 0x00, 0x00,
    // 2: transaction 1 writes item 0, 500 to 320
    0x02, 0x00, 0x01, 0x00, 0x03, 0x00, 0x00, 0x00, 0x00, 0x00, 0x00, 0x00, 0xF4, 0x01, 0x00, 0x00, 0x40, 0x01, 0x00, 0x00,
    // 3: transaction 1 reads item 1
    0x01, 0x00, 0x01, 0x00, 0x04, 0x00, 0x00, 0x00, 0x01, 0x00, 0x00, 0x00, 0x00, 0x00, 0x00, 0x00, 0x00, 0x00, 0x00, 0x00,
    // 4: transaction 1 writes item 1, 0 to 1
    0x02, 0x00, 0x01, 0x00, 0x05, 0x00, 0x00, 0x00, 0x01, 0x00, 0x00, 0x00, 0x00, 0x00, 0x00, 0x00, 0x01, 0x00, 0x00, 0x00,
    // 5: transaction 1 commits
    0x03, 0x00, 0x01, 0x00, 0x00, 0x00, 0x00, 0x00, 0x00, 0x00, 0x00, 0x00, 0x00, 0x00, 0x00, 0x00, 0x00, 0x00, 0x00, 0x00,
    // 6: transaction 2 reads item 1
    0x01, 0x00, 0x02, 0x00, 0x08, 0x00, 0x00, 0x00, 0x01, 0x00, 0x00, 0x00, 0x00, 0x00, 0x00, 0x00, 0x00, 0x00, 0x00, 0x00,
    // 7: transaction 3 reads item 2
    0x01, 0x00, 0x03, 0x00, 0x09, 0x00, 0x00, 0x00, 0x02, 0x00, 0x00, 0x00, 0x00, 0x00, 0x00, 0x00, 0x00, 0x00, 0x00, 0x00,
    // 8: transaction 2 writes item 1, 1 to 0
    0x02, 0x00, 0x02, 0x00, 0x0A, 0x00, 0x00, 0x00, 0x01, 0x00, 0x00, 0x00, 0x01, 0x00, 0x00, 0x00, 0x00, 0x00, 0x00, 0x00,
    // 9: transaction 3 writes item 2, 1000 to 1180
    0x02, 0x00, 0x03, 0x00, 0x0B, 0x00, 0x00, 0x00, 0x02, 0x00, 0x00, 0x00, 0xE8, 0x03, 0x00, 0x00, 0x9C, 0x04, 0x00, 0x00,
    // 10: transaction 2 commits
    0x03, 0x00, 0x02, 0x00, 0x00, 0x00, 0x00, 0x00, 0x00, 0x00, 0x00, 0x00, 0x00, 0x00, 0x00, 0x00, 0x00, 0x00, 0x00, 0x00,
    // 11: transaction 3 commits
    0x03, 0x00, 0x03, 0x00, 0x00, 0x00, 0x00, 0x00, 0x00, 0x00, 0x00, 0x00, 0x00, 0x00, 0x00, 0x00, 0x00, 0x00, 0x00, 0x00,
];

/// The example's copy with bad list 1: transaction 3 alone, three records.
#[rustfmt::skip]
pub const EXAMPLE_REPAIRED: [u8; 80] = [
    0x00, 0x00, 0x00, 0x00, 0x03, 0x00, 0x00, 0x00, 0x03, 0x00, 0x00, 0x00, 0x00, 0x00, 0x00, 0x00, 0x00, 0x00, 0x00, 0x00,
    0x01, 0x00, 0x03, 0x00, 0x02, 0x00, 0x00, 0x00, 0x02, 0x00, 0x00, 0x00, 0x00, 0x00, 0x00, 0x00, 0x00, 0x00, 0x00, 0x00,
    0x02, 0x00, 0x03, 0x00, 0x03, 0x00, 0x00, 0x00, 0x02, 0x00, 0x00, 0x00, 0xE8, 0x03, 0x00, 0x00, 0x9C, 0x04, 0x00, 0x00,
    0x03, 0x00, 0x03, 0x00, 0x00, 0x00, 0x00, 0x00, 0x00, 0x00, 0x00, 0x00, 0x00, 0x00, 0x00, 0x00, 0x00, 0x00, 0x00, 0x00,
];

pub const EXAMPLE_TABLE: [i32; 3] = [320, 0, 1180];

/// One record without its next.
#[derive(Clone, Copy)]
pub struct Line {
    pub kind: u8,
    pub transaction: u16,
    pub item: u32,
    pub before: i32,
    pub after: i32,
}

pub fn line(kind: u8, transaction: u16, item: u32, before: i32, after: i32) -> Line {
    Line {
        kind,
        transaction,
        item,
        before,
        after,
    }
}

pub fn read(transaction: u16, item: u32) -> Line {
    line(1, transaction, item, 0, 0)
}

pub fn write(transaction: u16, item: u32, before: i32, after: i32) -> Line {
    line(2, transaction, item, before, after)
}

pub fn commit(transaction: u16) -> Line {
    line(3, transaction, 0, 0, 0)
}

pub fn abort(transaction: u16) -> Line {
    line(4, transaction, 0, 0, 0)
}

/// The bytes of a journal with these lines; each next is found by looking ahead.
pub fn journal(items: u32, lines: &[Line]) -> Vec<u8> {
    let mut bytes = vec![0; 4];
    bytes.extend((lines.len() as u32).to_le_bytes());
    bytes.extend(items.to_le_bytes());
    bytes.extend([0; 8]);
    for (i, line) in lines.iter().enumerate() {
        let ahead = lines[i + 1..]
            .iter()
            .position(|later| later.transaction == line.transaction);
        let next = ahead.map_or(0, |steps| i + steps + 2) as u32;
        bytes.extend([line.kind, 0]);
        bytes.extend(line.transaction.to_le_bytes());
        bytes.extend(next.to_le_bytes());
        bytes.extend(line.item.to_le_bytes());
        bytes.extend(line.before.to_le_bytes());
        bytes.extend(line.after.to_le_bytes());
    }
    bytes
}

/// Sets the four bytes at this place of record i.
pub fn set4(journal: &mut [u8], i: usize, at: usize, value: u32) {
    journal[20 * i + at..20 * i + at + 4].copy_from_slice(&value.to_le_bytes());
}

/// Sets bytes 2-3 of record i.
pub fn set_transaction(journal: &mut [u8], i: usize, value: u16) {
    journal[20 * i + 2..20 * i + 4].copy_from_slice(&value.to_le_bytes());
}

pub fn refused<T>(number: u32, place: u64) -> Result<T, Refusal> {
    Err(Refusal { number, place })
}

pub fn counts(surviving: u32, undone: u32, aborted: u32, bytes: u64) -> Undone {
    Undone {
        surviving,
        undone,
        aborted,
        bytes,
    }
}

pub fn start(journal: &mut [u8], items: u32) -> Result<(), Refusal> {
    CALLS.start(journal, items)
}

pub fn check(journal: &[u8], table: &[i32]) -> Result<u32, Refusal> {
    CALLS.check(journal, table)
}

pub fn chain(journal: &[u8], transaction: u16, lsns: &mut [u32]) -> Result<u32, Refusal> {
    CALLS.chain(journal, transaction, lsns)
}

/// An undo that is accepted.
pub fn repair(journal: &[u8], table: &[i32], bad: &[u16]) -> Repair {
    plain::compare::repair(&CALLS, journal, table, bad)
}

/// The refusal of an undo with a status vector and output buffer that fit.
pub fn undo_refusal(journal: &[u8], table: &[i32], bad: &[u16]) -> Refusal {
    let mut left = table.to_vec();
    let mut status = [0xAA; 1_025];
    let mut out = vec![0xAA; 64_020];
    let refusal = CALLS
        .undo(journal, &mut left, bad, &mut status, &mut out)
        .unwrap_err();
    assert_eq!(left, table);
    assert!(status.iter().chain(&out).all(|&b| b == 0xAA));
    refusal
}

/// How many records of each kind the head's count reaches.
pub fn counts_of(journal: &[u8]) -> [u32; 4] {
    let count = u32::from_le_bytes([journal[4], journal[5], journal[6], journal[7]]);
    let mut counts = [0; 4];
    for i in 1..=count as usize {
        counts[journal[20 * i] as usize - 1] += 1;
    }
    counts
}

/// An append with the right counts and room for one record; answers journal and table.
pub fn append(journal: &[u8], table: &[i32], line: Line) -> Result<(Vec<u8>, Vec<i32>), Refusal> {
    let mut bytes = journal.to_vec();
    bytes.extend([0xAA; 20]);
    let mut left = table.to_vec();
    let mut counts = counts_of(journal);
    let before = (bytes.clone(), left.clone(), counts);
    let answer = CALLS.append(
        &mut bytes,
        &mut left,
        &mut counts,
        line.kind,
        line.transaction,
        line.item,
        line.after,
    );
    if answer.is_err() {
        assert_eq!((bytes.clone(), left.clone(), counts), before);
    } else {
        assert_eq!(counts, counts_of(&bytes));
    }
    answer.map(|()| (bytes, left))
}

/// The refusal of such an append.
pub fn append_refusal(journal: &[u8], table: &[i32], line: Line) -> (u32, u64) {
    let refusal = append(journal, table, line).unwrap_err();
    (refusal.number, refusal.place)
}
