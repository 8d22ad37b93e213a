//! The sum under the report (02, request 1).

use super::history::{History, CHANGED};
use crate::compare::Implementation;
use crate::days::day;
use crate::format::{Record, FILE_BYTES};

/// What the report says of an accepted day.
struct Lines {
    back: Vec<u16>,
    /// Item, old and new amount.
    items: Vec<[i64; 3]>,
    sum: i64,
}

impl Lines {
    /// The lines of an accepted day's report; nothing of a refused one's, which is one line. The sum
    /// is there once, right ahead of the last line, END; it has no sign but a minus, and no leading zero.
    fn of(text: &str) -> Option<Lines> {
        if text.starts_with("REFUSED ") {
            assert_eq!(text.lines().count(), 1);
            return None;
        }
        let lines: Vec<&str> = text.lines().collect();
        let [_, middle @ .., sum, end] = &lines[..] else {
            panic!("{text}");
        };
        assert!(end.starts_with("END "));
        let digits = sum.strip_prefix("SUM ").unwrap();
        let sum: i64 = digits.parse().unwrap();
        assert_eq!(digits, sum.to_string());
        let (mut back, mut items) = (Vec::new(), Vec::new());
        for line in middle {
            if let Some(sale) = line.strip_prefix("BACK ") {
                back.push(sale.parse().unwrap());
            } else {
                let numbers = line.strip_prefix("ITEM ").unwrap().split(' ');
                let numbers: Vec<i64> = numbers.map(|n| n.parse().unwrap()).collect();
                items.push(numbers.try_into().unwrap());
            }
        }
        Some(Lines { back, items, sum })
    }
}

fn total(amounts: &[i32]) -> i64 {
    amounts.iter().map(|&amount| i64::from(amount)).sum()
}

/// The sum in this report on these three files equals the sum of the table left less the sum of the
/// opening table, both worked out from journal, table and list; so do the table's amounts with those
/// that the report itself changes. It is 0 if no kept transaction writes. Answers the sum of an accepted day.
pub fn sum_in(journal: &[u8], table: &[u8], bad: &[u8], text: &[u8]) -> Option<i64> {
    let lines = Lines::of(std::str::from_utf8(text).unwrap())?;
    let [table, bad] = [table, bad].map(|file| &file[..file.len().min(FILE_BYTES)]);
    let amounts = table.chunks_exact(4);
    let closing: Vec<i32> = amounts
        .map(|b| i32::from_le_bytes(b.try_into().unwrap()))
        .collect();
    let names = bad.chunks_exact(2);
    let bad: Vec<u16> = names
        .map(|b| u16::from_le_bytes(b.try_into().unwrap()))
        .collect();

    let history = History::of(journal);
    let back = history.undo_set(&bad, CHANGED);
    assert_eq!(lines.back, back);
    let mut kept = history.commits();
    kept.retain(|t| !back.contains(t));
    let opening = history.initial(&closing);
    let mut left = opening.clone();
    let kept_write = |r: &&Record| r.is_write() && kept.contains(&r.transaction);
    let mut writes = 0;
    for r in history.records[1..].iter().filter(kept_write) {
        left[r.item as usize] = r.after;
        writes += 1;
    }
    assert_eq!(lines.sum, total(&left) - total(&opening));
    assert!(writes > 0 || lines.sum == 0);

    let changed: i64 = lines.items.iter().map(|[_, old, new]| new - old).sum();
    assert_eq!(lines.sum, total(&closing) + changed - total(&opening));
    Some(lines.sum)
}

/// The sum in the report on the day of this seed, which is as it must be; none of a refused day.
pub fn sum_of_day(calls: &impl Implementation, seed: u64) -> Option<i64> {
    let day = day(seed);
    let text = calls.report(&day.journal, &day.table_file, &day.bad_file);
    sum_in(&day.journal, &day.table_file, &day.bad_file, &text)
}

/// What the sums of some accepted days were.
#[derive(Debug, Default, Clone, Copy)]
pub struct Sums {
    pub below_zero: u64,
    pub zero: u64,
    pub above_zero: u64,
    /// Of these, how many have no place in 32 bits.
    pub wide: u64,
}

impl Sums {
    pub fn note(&mut self, sum: i64) {
        match sum {
            ..=-1 => self.below_zero += 1,
            0 => self.zero += 1,
            1.. => self.above_zero += 1,
        }
        self.wide += u64::from(i32::try_from(sum).is_err());
    }

    pub fn add(&mut self, other: Sums) {
        self.below_zero += other.below_zero;
        self.zero += other.zero;
        self.above_zero += other.above_zero;
        self.wide += other.wide;
    }

    /// The fewest of any kind.
    pub fn fewest(&self) -> u64 {
        let kinds = [self.below_zero, self.zero, self.above_zero, self.wide];
        kinds.into_iter().min().unwrap()
    }

    pub fn line(&self) -> String {
        let Sums {
            below_zero,
            zero,
            above_zero,
            wide,
        } = self;
        format!(
            "sums: {below_zero} below zero, {zero} zero, {above_zero} above, {wide} over 32 bits\n"
        )
    }
}
