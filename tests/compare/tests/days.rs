//! Random and damaged days: every call's answer, and every loan byte for byte, are those of the
//! plain implementation; each refusal of each call is met.

use compare::Proved;
use plain::compare::{answers, Answers, Plain};
use plain::days::day;
use plain::properties::loans::refused_calls_write_nothing;
use plain::run::{days, on_threads, Met, Seeds};

/// What was met, and how many calls were refused.
fn compared(seeds: Seeds) -> (Met, u64) {
    let (mut met, mut refused) = (Met::default(), 0);
    for day in seeds.map(day) {
        let mut expected = answers(&Plain, &day);
        expected.report.clear();
        let found = answers(&Proved, &day);
        assert!(
            found == expected,
            "day {}: {}",
            day.seed,
            where_they_differ(&found, &expected)
        );
        refused += refused_calls_write_nothing(&day, &found);
        met.note_calls(&found);
    }
    (met, refused)
}

/// The calls that differ, with their answers.
fn where_they_differ(found: &Answers, expected: &Answers) -> String {
    let mut text = String::new();
    if found.start != expected.start {
        text += &format!(
            "start {:?} for {:?}; ",
            found.start.answer, expected.start.answer
        );
    }
    if found.append != expected.append {
        text += &format!(
            "append {:?} for {:?}; ",
            found.append.answer, expected.append.answer
        );
    }
    if found.check != expected.check {
        text += &format!("check {:?} for {:?}; ", found.check, expected.check);
    }
    if found.chain != expected.chain {
        text += &format!(
            "chain {:?} for {:?}; ",
            found.chain.answer, expected.chain.answer
        );
    }
    if found.undo != expected.undo {
        text += &format!(
            "undo {:?} for {:?}; ",
            found.undo.answer, expected.undo.answer
        );
    }
    if found.count != expected.count {
        text += &format!("count {:?} for {:?}; ", found.count, expected.count);
    }
    text
}

#[test]
fn all_days_agree_and_each_refusal_is_met() {
    let (mut met, mut refused) = (Met::default(), 0);
    for (part, of) in on_threads(days(), compared) {
        met.add(part);
        refused += of;
    }
    let lines = met.lines_of_calls();
    print!(
        "{} days compared; {refused} refused calls wrote nothing\n{lines}",
        days()
    );
}
