//! The first 20,000 days: each refusal that a call can give is met, and a refused call has
//! written to nothing lent.

use plain::compare::{answers, Answers, Plain};
use plain::days::{day, Day};
use plain::properties::loans::refused_calls_write_nothing;
use plain::run::{on_threads, Seeds, DAYS, REFUSALS};
use plain::Refusal;
use std::collections::BTreeMap;

/// How often each call met each case.
type Met = BTreeMap<(&'static str, String), u32>;

fn note(met: &mut Met, call: &'static str, case: impl ToString) {
    *met.entry((call, case.to_string())).or_default() += 1;
}

fn note_answer<T>(met: &mut Met, call: &'static str, answer: &Result<T, Refusal>) {
    match answer {
        Ok(_) => note(met, call, "accepted"),
        Err(refusal) => note(met, call, refusal.number),
    }
}

/// The record count of the head, where there is one.
fn count(journal: &[u8]) -> u64 {
    let bytes = journal.get(4..8).unwrap_or(&[0; 4]);
    u32::from_le_bytes(bytes.try_into().unwrap()).into()
}

/// Append's refusals of the new record, and of a full journal, beside those of old records.
fn note_new_record(met: &mut Met, day: &Day, answers: &Answers) {
    let count = count(&day.journal);
    let Err(refusal) = answers.append.answer else {
        return;
    };
    if (4..=9).contains(&refusal.number) {
        let which = if refusal.place > count { "new" } else { "old" };
        let limit = if refusal.place == 3_201 {
            " at 3,201"
        } else {
            ""
        };
        note(met, "append", format!("{} {which}{limit}", refusal.number));
    }
    if refusal.number == 14 {
        let room = day.journal.len() as u64 - 20 * (count + 1);
        let why = match (count, room) {
            (3_200, 20..) => "14 full",
            (3_200, _) => "14 full and no room",
            _ => "14 no room",
        };
        note(met, "append", why);
    }
}

fn note_truncated(met: &mut Met, day: &Day, answers: &Answers) {
    if answers.check.is_err_and(|refusal| refusal.number == 1) {
        let why = if day.journal.len() < 20 {
            "1 under 20"
        } else {
            "1 whole length"
        };
        note(met, "check", why);
    }
}

/// The two ways to be torn; and journals that are counted though check refuses a record, among them some with a
/// record of none of the four kinds.
fn note_counted(met: &mut Met, day: &Day, answers: &Answers) {
    match answers.count.answer {
        Err(refusal) if refusal.number == 1 && day.journal.len() < 20 => {
            note(met, "count", "1 under 20")
        }
        Err(refusal) if refusal.number == 1 => note(met, "count", "1 whole length"),
        Err(_) => {}
        Ok(()) => {
            if let Err(refusal) = answers.check {
                note(met, "count", format!("accepted, check {}", refusal.number));
            }
            let counted: u32 = answers.count.counts.iter().sum();
            if u64::from(counted) < count(&day.journal) {
                note(met, "count", "accepted, another kind");
            }
        }
    }
}

fn note_report(met: &mut Met, text: &[u8]) {
    let text = std::str::from_utf8(text).unwrap();
    match text.strip_prefix("REFUSED ") {
        Some(rest) => note(met, "report", rest.split(' ').next().unwrap()),
        None => note(met, "report", "accepted"),
    }
}

fn met_in(seeds: Seeds) -> Met {
    let mut met = Met::new();
    for day in seeds.map(day) {
        let answers = answers(&Plain, &day);
        refused_calls_write_nothing(&day, &answers);
        note_answer(&mut met, "start", &answers.start.answer);
        note_answer(&mut met, "append", &answers.append.answer);
        note_answer(&mut met, "check", &answers.check);
        note_answer(&mut met, "chain", &answers.chain.answer);
        note_answer(&mut met, "undo", &answers.undo.answer);
        note_answer(&mut met, "count", &answers.count.answer);
        note_new_record(&mut met, &day, &answers);
        note_truncated(&mut met, &day, &answers);
        note_counted(&mut met, &day, &answers);
        note_report(&mut met, &answers.report);
        if count(&day.journal) == 3_200 {
            note_answer(&mut met, "undo of 3,200", &answers.undo.answer);
        }
    }
    met
}

const CASES: [(&str, &str); 31] = [
    ("append", "4 old"),
    ("append", "5 old"),
    ("append", "6 old"),
    ("append", "7 old"),
    ("append", "8 old"),
    ("append", "9 old"),
    ("append", "4 new"),
    ("append", "6 new"),
    ("append", "7 new"),
    ("append", "8 new"),
    ("append", "4 new at 3,201"),
    ("append", "6 new at 3,201"),
    ("append", "7 new at 3,201"),
    ("append", "8 new at 3,201"),
    ("append", "14 full"),
    ("append", "14 no room"),
    ("check", "1 under 20"),
    ("check", "1 whole length"),
    ("count", "1 under 20"),
    ("count", "1 whole length"),
    ("count", "accepted, check 3"),
    ("count", "accepted, check 4"),
    ("count", "accepted, check 5"),
    ("count", "accepted, check 6"),
    ("count", "accepted, check 7"),
    ("count", "accepted, check 8"),
    ("count", "accepted, check 9"),
    ("count", "accepted, check 10"),
    ("count", "accepted, another kind"),
    ("undo of 3,200", "accepted"),
    ("undo of 3,200", "11"),
];

#[test]
fn each_refusal_of_each_call_is_met() {
    let mut met = Met::new();
    for part in on_threads(DAYS, met_in) {
        for (case, times) in part {
            *met.entry(case).or_default() += times;
        }
    }
    for ((call, case), times) in &met {
        println!("{call} {case}: {times}");
    }
    let mut expected: Vec<(&str, String)> = Vec::new();
    for (call, numbers) in REFUSALS {
        expected.push((call, "accepted".into()));
        expected.extend(numbers.iter().map(|number| (call, number.to_string())));
    }
    expected.extend(CASES.map(|(call, case)| (call, case.to_string())));
    let missing: Vec<_> = expected
        .iter()
        .filter(|case| !met.contains_key(case))
        .collect();
    assert!(missing.is_empty(), "never met: {missing:?}");
    // And nothing else: a call gives no number that is not its own.
    for (call, case) in met.keys().filter(|(_, case)| case.parse::<u32>().is_ok()) {
        if *call != "undo of 3,200" {
            assert!(expected.contains(&(call, case.clone())), "{call} {case}");
        }
    }
}
