//! Runs over many seeds: how many, on which threads, and what was met.

use crate::compare::Answers;
use crate::Refusal;
use std::collections::BTreeMap;
use std::iter::StepBy;
use std::ops::Range;

/// How many days a run compares if nothing else is asked for.
pub const DAYS: u64 = 20_000;
const THREADS: u64 = 2;

/// The number of days to compare: the environment's DAYS, if set.
pub fn days() -> u64 {
    match std::env::var("DAYS") {
        Ok(number) => number.parse().expect("DAYS is a number of days"),
        Err(_) => DAYS,
    }
}

/// A number of seeds that is meant for a run of 20,000 days, in proportion to the run's days.
pub fn scaled(seeds: u64) -> u64 {
    (seeds * days()).div_ceil(DAYS)
}

/// Whether the run is long enough to meet all that is looked for.
pub fn is_whole() -> bool {
    days() >= DAYS
}

/// The seeds of one thread.
pub type Seeds = StepBy<Range<u64>>;

/// Deals the seeds from 0 on out to the threads, and answers what each came to.
pub fn on_threads<T: Send>(seeds: u64, run: impl Fn(Seeds) -> T + Sync) -> Vec<T> {
    let run = &run;
    std::thread::scope(|scope| {
        let threads: Vec<_> = (0..THREADS)
            .map(|first| scope.spawn(move || run((first..seeds).step_by(THREADS as usize))))
            .collect();
        let results = threads.into_iter().map(|thread| thread.join().unwrap());
        results.collect()
    })
}

/// Names what is being tried if the thread panics.
pub struct Trying<'a>(pub &'a str, pub u64);

impl Drop for Trying<'_> {
    fn drop(&mut self) {
        if std::thread::panicking() {
            eprintln!("{}: fails on seed {}", self.0, self.1);
        }
    }
}

/// The refusals of each call and of the report, in the order of the table of document 01.
pub const REFUSALS: [(&str, &[u32]); 7] = [
    ("start", &[1, 2]),
    ("append", &[1, 2, 3, 4, 5, 6, 7, 8, 9, 10, 14, 15]),
    ("check", &[1, 2, 3, 4, 5, 6, 7, 8, 9, 10]),
    ("chain", &[1, 2, 4, 5, 6, 7, 8, 9, 12, 14]),
    ("undo", &[1, 2, 3, 4, 5, 6, 7, 8, 9, 10, 11, 12, 13, 14]),
    ("count", &[1, 2]),
    ("report", &[1, 2, 3, 4, 5, 6, 7, 8, 9, 10, 11, 12]),
];

/// How often each call gave each number, 0 for accepted.
#[derive(Debug, Default)]
pub struct Met(BTreeMap<(&'static str, u32), u64>);

impl Met {
    pub fn note<T>(&mut self, call: &'static str, answer: &Result<T, Refusal>) {
        let number = answer.as_ref().map_or_else(|refusal| refusal.number, |_| 0);
        *self.0.entry((call, number)).or_default() += 1;
    }

    /// The answers of the calls.
    pub fn note_calls(&mut self, answers: &Answers) {
        self.note("start", &answers.start.answer);
        self.note("append", &answers.append.answer);
        self.note("check", &answers.check);
        self.note("chain", &answers.chain.answer);
        self.note("undo", &answers.undo.answer);
        self.note("count", &answers.count.answer);
    }

    /// A report: its refusal, or accepted.
    pub fn note_report(&mut self, text: &[u8]) {
        let text = std::str::from_utf8(text).unwrap();
        let numbers = text.strip_prefix("REFUSED ").map(|rest| {
            let (number, place) = rest.trim_end().split_once(' ').unwrap();
            (number.parse().unwrap(), place.parse().unwrap())
        });
        let answer = numbers.map_or(Ok(()), |(number, place)| Err(Refusal { number, place }));
        self.note("report", &answer);
    }

    pub fn add(&mut self, other: Met) {
        for (case, times) in other.0 {
            *self.0.entry(case).or_default() += times;
        }
    }

    fn times(&self, call: &'static str, number: u32) -> u64 {
        self.0.get(&(call, number)).copied().unwrap_or(0)
    }

    /// A line for this call. A call gives no number that is not its own; in a run that is long
    /// enough each of its refusals was met, and so was an accepted call.
    pub fn line(&self, call: &'static str) -> String {
        let (_, numbers) = REFUSALS.iter().find(|(name, _)| *name == call).unwrap();
        let own = |number: u32| number == 0 || numbers.contains(&number);
        for (&(name, number), times) in &self.0 {
            assert!(name != call || own(number), "{call} {number}: {times}");
        }
        let refused = numbers.iter().map(|&number| {
            let times = self.times(call, number);
            assert!(times > 0 || !is_whole(), "{call} never gave {number}");
            format!("{number}: {times}")
        });
        let refused: Vec<String> = refused.collect();
        let accepted = self.times(call, 0);
        assert!(accepted > 0 || !is_whole(), "{call} never accepted");
        format!(
            "{call}: accepted {accepted}, refused {}\n",
            refused.join(", ")
        )
    }

    /// The lines of the calls.
    pub fn lines_of_calls(&self) -> String {
        let calls = ["start", "append", "check", "chain", "undo", "count"];
        calls.map(|call| self.line(call)).concat()
    }
}
