//! Posting and reading.

use super::history::{whole_length, History};
use crate::compare::{appends_in_turn, AppendAnswer, Implementation};
use crate::days::{appends, day, Append, Appends, Day};
use crate::format::Record;

/// The day of this seed, if it is as built; the large ones are left out.
pub(super) fn intact_day(seed: u64) -> Option<Day> {
    let small = seed % 100 != 0;
    small.then(|| day(seed)).filter(|day| day.known.intact)
}

/// A journal that keeps all rules passes; check answers how many transactions are active.
pub fn days_as_built_pass(calls: &impl Implementation, seed: u64) -> u64 {
    let Some(day) = intact_day(seed) else {
        return 0;
    };
    assert_eq!(calls.check(&day.journal, &day.table), Ok(day.known.active));
    let initial = History::of(&day.journal).initial(&day.table);
    assert_eq!(initial, day.known.initial);
    1
}

/// What posting builds, reading accepts, with the same records and amounts: after each post,
/// refused ones included. A refused post changes nothing.
pub fn appends_build_what_check_accepts(calls: &impl Implementation, seed: u64) -> u64 {
    let appends = appends(seed);
    let steps = appends_in_turn(calls, &appends);
    assert_eq!(steps[0].answer, Ok(()));
    let mut built = Vec::new();
    for (i, &new) in appends.appends.iter().enumerate() {
        let (before, after) = (&steps[i], &steps[i + 1]);
        if after.answer.is_ok() {
            built.push(new);
        } else {
            assert_eq!(before.journal, after.journal);
            assert_eq!(before.table, after.table);
            assert_eq!(before.counts, after.counts);
        }
        assert!(calls.check(&after.journal, &after.table).is_ok());
        reads_back(&appends, &built, after);
    }
    appends.appends.len() as u64
}

/// The journal has just these records, over the same opening table; the counts agree, and the
/// bytes behind the last record are those that were lent.
fn reads_back(appends: &Appends, built: &[Append], left: &AppendAnswer) {
    let history = History::of(&left.journal);
    assert!(history.records[1..]
        .iter()
        .map(posted)
        .eq(built.iter().copied()));
    assert_eq!(history.initial(&left.table), appends.initial);
    assert_eq!(history.counts(), left.counts);
    let behind = whole_length(&left.journal);
    assert_eq!(left.journal[behind..], appends.journal[behind..]);
}

/// The post that gives this record.
fn posted(record: &Record) -> Append {
    Append {
        kind: record.kind,
        transaction: record.transaction,
        item: record.item,
        after: record.after,
    }
}

/// Start, and a post for each record, over this opening table and in room for just these bytes:
/// all accepted. Answers the journal and the table.
pub(super) fn rebuilt(
    calls: &impl Implementation,
    journal: &[u8],
    initial: Vec<i32>,
) -> (Vec<u8>, Vec<i32>) {
    let records = &History::of(journal).records[1..];
    let rebuilding = Appends {
        initial,
        journal: vec![0xAA; journal.len()],
        appends: records.iter().map(posted).collect(),
    };
    let mut steps = appends_in_turn(calls, &rebuilding);
    assert!(steps.iter().all(|step| step.answer.is_ok()));
    let last = steps.pop().unwrap();
    (last.journal, last.table)
}

/// Every journal that passes is built by start and posts from its opening table, byte for byte,
/// active transactions included.
pub fn journals_that_pass_can_be_rebuilt(calls: &impl Implementation, seed: u64) -> u64 {
    let Some(day) = intact_day(seed) else {
        return 0;
    };
    let journal = &day.journal[..whole_length(&day.journal)];
    let initial = History::of(journal).initial(&day.table);
    let (built, table) = rebuilt(calls, journal, initial);
    assert_eq!(built, journal);
    assert_eq!(table, day.table);
    1
}

/// Slip visits just the transaction's records, in order, and writes nothing behind them. A case is
/// a transaction.
pub fn chains_are_the_records_of_a_transaction(calls: &impl Implementation, seed: u64) -> u64 {
    let Some(day) = intact_day(seed) else {
        return 0;
    };
    let records = History::of(&day.journal).records;
    let mut numbers: Vec<u16> = records[1..].iter().map(|r| r.transaction).collect();
    numbers.sort();
    numbers.dedup();
    for &t in &numbers {
        let own = (1..records.len()).filter(|&i| records[i].transaction == t);
        let mut expected: Vec<u32> = own.map(|i| i as u32).collect();
        let mut lsns = vec![0xAAAA_AAAA; expected.len() + 1];
        let visited = calls.chain(&day.journal, t, &mut lsns);
        assert_eq!(visited, Ok(expected.len() as u32));
        expected.push(0xAAAA_AAAA);
        assert_eq!(lsns, expected);
    }
    numbers.len() as u64
}
