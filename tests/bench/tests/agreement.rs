//! The linear version is a true one: its answers and loans are those of the plain second
//! implementation on random and damaged days, and those of the proved library on the days that
//! are measured.

use bench::calls::compare;
use bench::days::{self, SHAPES, SIZES};
use bench::linear;
use plain::compare::{answers, appends_in_turn, undos_in_turn, Implementation, Plain};
use plain::days::{appends, day, undo_sequence};
use plain::{Refusal, Undone};
use std::collections::BTreeSet;

const DAYS: u64 = 3_000;
const SEQUENCES: u64 = 200;

/// The linear calls; start, the chain walk, the count and the report are the plain ones.
struct Linear;

impl Implementation for Linear {
    fn start(&self, journal: &mut [u8], items: u32) -> Result<(), Refusal> {
        plain::start(journal, items)
    }

    fn append(
        &self,
        journal: &mut [u8],
        table: &mut [i32],
        counts: &mut [u32; 4],
        kind: u8,
        transaction: u16,
        item: u32,
        after: i32,
    ) -> Result<(), Refusal> {
        linear::append(journal, table, counts, kind, transaction, item, after)
    }

    fn check(&self, journal: &[u8], table: &[i32]) -> Result<u32, Refusal> {
        linear::check(journal, table)
    }

    fn chain(&self, journal: &[u8], transaction: u16, lsns: &mut [u32]) -> Result<u32, Refusal> {
        plain::chain(journal, transaction, lsns)
    }

    fn undo(
        &self,
        journal: &[u8],
        table: &mut [i32],
        bad: &[u16],
        status: &mut [u8],
        out: &mut [u8],
    ) -> Result<Undone, Refusal> {
        linear::undo(journal, table, bad, status, out)
    }

    fn count_records(&self, journal: &[u8], counts: &mut [u32; 4]) -> Result<(), Refusal> {
        plain::count_records(journal, counts)
    }

    fn report(&self, _: &[u8], _: &[u8], _: &[u8]) -> Vec<u8> {
        Vec::new()
    }
}

fn number<T>(answer: &Result<T, Refusal>) -> u32 {
    answer.as_ref().map_or_else(|refusal| refusal.number, |_| 0)
}

#[test]
fn random_days_agree_and_each_refusal_is_met() {
    let mut met = [(); 3].map(|()| BTreeSet::new());
    for day in (0..DAYS).map(day) {
        let mut expected = answers(&Plain, &day);
        expected.report.clear();
        let found = answers(&Linear, &day);
        assert!(found.check == expected.check, "check, day {}", day.seed);
        assert!(found.undo == expected.undo, "undo, day {}", day.seed);
        assert!(found.append == expected.append, "append, day {}", day.seed);
        met[0].insert(number(&found.check));
        met[1].insert(number(&found.undo.answer));
        met[2].insert(number(&found.append.answer));
    }
    assert!(met[0].iter().copied().eq(0..=10), "{:?}", met[0]);
    assert!(met[1].iter().copied().eq(0..=14), "{:?}", met[1]);
    let of_append = (0..=10).chain([14, 15]);
    assert!(met[2].iter().copied().eq(of_append), "{:?}", met[2]);
}

#[test]
fn calls_in_turn_agree() {
    for sequence in (0..SEQUENCES).map(appends) {
        let expected = appends_in_turn(&Plain, &sequence);
        assert!(appends_in_turn(&Linear, &sequence) == expected);
    }
    for sequence in (0..SEQUENCES).map(undo_sequence) {
        let expected = undos_in_turn(&Plain, &sequence);
        assert!(undos_in_turn(&Linear, &sequence) == expected);
    }
}

#[test]
fn the_days_that_are_measured_agree() {
    for shape in SHAPES {
        for records in SIZES {
            let day = days::day(shape, records, 1);
            assert_eq!(plain::check(&day.journal, &day.table), Ok(0));
            compare(&day);
        }
    }
}
