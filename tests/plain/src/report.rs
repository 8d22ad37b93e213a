//! The program's day: what `takeback` prints over its three files.

use crate::format::*;
use crate::undo::{undo, Undone, UNDONE};
use crate::Refusal;

/// The whole output over the bytes of `journal.bin`, `table.bin` and `bad.bin`, of which the
/// first 64,020 each count. A table or list that ends in part of an entry is cut to whole ones.
pub fn report(journal: &[u8], table: &[u8], bad: &[u8]) -> Vec<u8> {
    let journal = front(journal);
    let old: Vec<i32> = front(table)
        .chunks_exact(4)
        .map(|b| i32::from_le_bytes([b[0], b[1], b[2], b[3]]))
        .collect();
    let bad: Vec<u16> = front(bad)
        .chunks_exact(2)
        .map(|b| u16::from_le_bytes([b[0], b[1]]))
        .collect();
    let mut new = old.clone();
    let mut status = [0; STATUS_BYTES];
    let mut out = [0; FILE_BYTES];
    let text = match undo(journal, &mut new, &bad, &mut status, &mut out) {
        Ok(answer) => {
            let sum = sum_of(&out[..answer.bytes as usize]);
            let head = Record::decode(journal);
            day_lines(&head, &answer, &status, &old, &new, sum)
        }
        Err(refusal) => refusal_line(refusal),
    };
    text.into_bytes()
}

/// The first 64,020 bytes.
fn front(file: &[u8]) -> &[u8] {
    &file[..file.len().min(FILE_BYTES)]
}

fn refusal_line(refusal: Refusal) -> String {
    format!("REFUSED {} {}\n", refusal.number, refusal.place)
}

/// The total of after less before over the writes of a repaired journal (01: copy; 02, request 1).
fn sum_of(repaired: &[u8]) -> i64 {
    let records = repaired.chunks(RECORD_BYTES).skip(1).map(Record::decode);
    let writes = records.filter(Record::is_write);
    writes
        .map(|r| i64::from(r.after) - i64::from(r.before))
        .sum()
}

/// Record counts; each undone transaction; each changed item; the sum; the three counts.
fn day_lines(
    head: &Record,
    answer: &Undone,
    status: &[u8],
    old: &[i32],
    new: &[i32],
    sum: i64,
) -> String {
    let repaired = answer.bytes / RECORD_BYTES as u64 - 1;
    let mut text = format!("JOURNAL {} COPY {}\n", head.next, repaired);
    for (transaction, &state) in status.iter().enumerate() {
        if state == UNDONE {
            text += &format!("BACK {transaction}\n");
        }
    }
    for item in 0..old.len() {
        if old[item] != new[item] {
            text += &format!("ITEM {} {} {}\n", item, old[item], new[item]);
        }
    }
    text += &format!("SUM {sum}\n");
    let Undone {
        surviving,
        undone,
        aborted,
        ..
    } = answer;
    text += &format!("END {surviving} {undone} {aborted}\n");
    text
}
