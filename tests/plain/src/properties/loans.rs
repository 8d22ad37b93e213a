//! What a call does not write, and what it does not read.

use super::history::whole_length;
use crate::compare::{answers, Answers, Implementation, UNCOUNTED};
use crate::days::{day, Day};
use crate::format::{Record, MAX_RECORDS, RECORD_BYTES};

/// A refused call leaves every loan as it was. Answers how many of the calls were refused.
pub fn refused_calls_write_nothing(day: &Day, answers: &Answers) -> u64 {
    let mut refused = u64::from(answers.check.is_err());
    if answers.start.answer.is_err() {
        refused += 1;
        assert_eq!(answers.start.journal, day.fresh);
    }
    if answers.append.answer.is_err() {
        refused += 1;
        assert_eq!(answers.append.journal, day.journal);
        assert_eq!(answers.append.table, day.table);
        assert_eq!(answers.append.counts, day.counts);
    }
    if answers.chain.answer.is_err() {
        refused += 1;
        assert_eq!(answers.chain.lsns, day.lsns);
    }
    if answers.undo.answer.is_err() {
        refused += 1;
        assert_eq!(answers.undo.table, day.table);
        assert_eq!(answers.undo.status, day.status);
        assert_eq!(answers.undo.out, day.out);
    }
    if answers.count.answer.is_err() {
        refused += 1;
        assert_eq!(answers.count.counts, UNCOUNTED);
    }
    refused
}

/// Bytes behind the last record are not read, and only append's new record changes them.
pub fn bytes_behind_the_last_record_do_not_matter(calls: &impl Implementation, seed: u64) -> u64 {
    if seed % 100 == 0 {
        return 0;
    }
    let mut day = day(seed);
    let counted = day.journal.len() >= RECORD_BYTES
        && Record::decode(&day.journal).next <= MAX_RECORDS
        && whole_length(&day.journal) <= day.journal.len();
    if !counted {
        return 0;
    }
    let end = whole_length(&day.journal);
    let first = answers(calls, &day);
    day.journal[end..].iter_mut().for_each(|byte| *byte ^= 0x5A);
    let mut second = answers(calls, &day);
    let appended = first.append.answer.is_ok();
    let written = if appended { end + RECORD_BYTES } else { end };
    assert_eq!(
        first.append.journal[..written],
        second.append.journal[..written]
    );
    assert_eq!(second.append.journal[written..], day.journal[written..]);
    second.append.journal = first.append.journal.clone();
    assert_eq!(first, second);
    day.journal.truncate(end);
    let cut = answers(calls, &day);
    assert_eq!(
        (cut.check, &cut.chain, &cut.undo, cut.count, &cut.report),
        (
            first.check,
            &first.chain,
            &first.undo,
            first.count,
            &first.report
        )
    );
    1
}
