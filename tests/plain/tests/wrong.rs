//! Each property can fail: calls that are wrong in one point, each with a property that sees it.

use plain::compare::Implementation;
use plain::days::Append;
use plain::format::{Record, RECORD_BYTES};
use plain::properties::counting::*;
use plain::properties::cutting::*;
use plain::properties::history::{is_rewrite, History, Rule, CHANGED};
use plain::properties::loans::bytes_behind_the_last_record_do_not_matter;
use plain::properties::posting::*;
use plain::properties::reporting::sum_of_day;
use plain::properties::rewriting::*;
use plain::properties::undoing::*;
use plain::{Refusal, Undone};
use std::panic::{catch_unwind, AssertUnwindSafe};

/// What undo is given.
struct Undoing<'a> {
    journal: &'a [u8],
    table: &'a mut [i32],
    bad: &'a [u16],
    status: &'a mut [u8],
    out: &'a mut [u8],
}

impl Undoing<'_> {
    fn right(self) -> Result<Undone, Refusal> {
        plain::undo(self.journal, self.table, self.bad, self.status, self.out)
    }

    fn again(&mut self) -> Undoing<'_> {
        Undoing {
            journal: self.journal,
            table: self.table,
            bad: self.bad,
            status: self.status,
            out: self.out,
        }
    }

    /// Takes this set back, where the output buffer has room for its copy.
    fn taking(mut self, set: fn(&History, &[u16]) -> Vec<u16>) -> Result<Undone, Refusal> {
        let history = History::of(self.journal);
        let closing = self.table.to_vec();
        let right = self.again().right()?;
        let undone = set(&history, self.bad);
        let mut kept = history.commits();
        kept.retain(|t| !undone.contains(t));
        let copy = history.only(&kept);
        if self.out.len() < copy.len() {
            return Ok(right);
        }
        self.out[..copy.len()].copy_from_slice(&copy);
        self.table.copy_from_slice(&history.initial(&closing));
        for r in history.records[1..].iter().filter(|r| r.is_write()) {
            if kept.contains(&r.transaction) {
                self.table[r.item as usize] = r.after;
            }
        }
        undone.iter().for_each(|&t| self.status[t as usize] = 2);
        kept.iter().for_each(|&t| self.status[t as usize] = 1);
        Ok(Undone {
            surviving: kept.len() as u32,
            undone: undone.len() as u32,
            aborted: right.aborted,
            bytes: copy.len() as u64,
        })
    }
}

/// What append is given.
struct Appending<'a> {
    journal: &'a mut [u8],
    table: &'a mut [i32],
    counts: &'a mut [u32; 4],
    new: Append,
}

impl Appending<'_> {
    fn right(&mut self) -> Result<(), Refusal> {
        let Append {
            kind,
            transaction,
            item,
            after,
        } = self.new;
        plain::append(
            self.journal,
            self.table,
            self.counts,
            kind,
            transaction,
            item,
            after,
        )
    }
}

/// The report on journal, table and list file.
type Report = fn(&[u8], &[u8], &[u8]) -> Vec<u8>;

/// The plain calls but for these.
struct Wrong {
    check: fn(&[u8], &[i32]) -> Result<u32, Refusal>,
    chain: fn(&[u8], u16, &mut [u32]) -> Result<u32, Refusal>,
    append: fn(Appending) -> Result<(), Refusal>,
    undo: fn(Undoing) -> Result<Undone, Refusal>,
    count: fn(&[u8], &mut [u32; 4]) -> Result<(), Refusal>,
    report: Report,
}

impl Implementation for Wrong {
    fn start(&self, journal: &mut [u8], items: u32) -> Result<(), Refusal> {
        plain::start(journal, items)
    }

    fn append(
        &self,
        journal: &mut [u8],
        table: &mut [i32],
        counts: &mut [u32; 4],
        kind: u8,
        transaction: u16,
        item: u32,
        after: i32,
    ) -> Result<(), Refusal> {
        (self.append)(Appending {
            journal,
            table,
            counts,
            new: Append {
                kind,
                transaction,
                item,
                after,
            },
        })
    }

    fn check(&self, journal: &[u8], table: &[i32]) -> Result<u32, Refusal> {
        (self.check)(journal, table)
    }

    fn chain(&self, journal: &[u8], transaction: u16, lsns: &mut [u32]) -> Result<u32, Refusal> {
        (self.chain)(journal, transaction, lsns)
    }

    fn undo(
        &self,
        journal: &[u8],
        table: &mut [i32],
        bad: &[u16],
        status: &mut [u8],
        out: &mut [u8],
    ) -> Result<Undone, Refusal> {
        (self.undo)(Undoing {
            journal,
            table,
            bad,
            status,
            out,
        })
    }

    fn count_records(&self, journal: &[u8], counts: &mut [u32; 4]) -> Result<(), Refusal> {
        (self.count)(journal, counts)
    }

    fn report(&self, journal: &[u8], table: &[u8], bad: &[u8]) -> Vec<u8> {
        (self.report)(journal, table, bad)
    }
}

fn right() -> Wrong {
    Wrong {
        check: plain::check,
        chain: plain::chain,
        append: |mut given| given.right(),
        undo: |given| given.right(),
        count: plain::count_records,
        report: plain::report,
    }
}

/// The property fails on one of the first seeds.
fn is_seen(holds: fn(&Wrong, u64) -> u64, wrong: Wrong) {
    let fails = |seed| catch_unwind(AssertUnwindSafe(|| holds(&wrong, seed))).is_err();
    assert!((0..300).any(fails));
}

fn undo_is_seen(holds: fn(&Wrong, u64) -> u64, undo: fn(Undoing) -> Result<Undone, Refusal>) {
    is_seen(holds, Wrong { undo, ..right() });
}

fn append_is_seen(holds: fn(&Wrong, u64) -> u64, append: fn(Appending) -> Result<(), Refusal>) {
    is_seen(holds, Wrong { append, ..right() });
}

fn count_is_seen(
    holds: fn(&Wrong, u64) -> u64,
    count: fn(&[u8], &mut [u32; 4]) -> Result<(), Refusal>,
) {
    is_seen(holds, Wrong { count, ..right() });
}

fn sum_is_seen(report: Report) {
    let holds = |wrong: &Wrong, seed| u64::from(sum_of_day(wrong, seed).is_some());
    is_seen(holds, Wrong { report, ..right() });
}

/// What feeds by another rule: the property of feeding fails on one of the first seeds.
fn feeding_is_seen(rule: Rule) {
    let feeding =
        |journal: &[u8], removed: &[u16]| History::of(journal).without(removed).sources(rule);
    let holds = |seed| reads_are_fed_by_changes(feeding, seed);
    let fails = |seed| catch_unwind(AssertUnwindSafe(|| holds(seed))).is_err();
    assert!((0..300).any(fails));
}

/// The report with another sum, if the day is accepted.
fn with_sum(report: Vec<u8>, other: impl FnOnce(i64) -> i64) -> Vec<u8> {
    let text = String::from_utf8(report).unwrap();
    let Some((front, rest)) = text.split_once("SUM ") else {
        return text.into_bytes();
    };
    let (sum, end) = rest.split_once('\n').unwrap();
    let sum = other(sum.parse().unwrap());
    format!("{front}SUM {sum}\n{end}").into_bytes()
}

fn once(names: &[u16]) -> Vec<u16> {
    let mut names = names.to_vec();
    names.sort();
    names.dedup();
    names
}

#[test]
fn changing_nothing() {
    let idle = |given: Undoing| Undoing { bad: &[], ..given }.right();
    undo_is_seen(which_lists_undo_accepts, idle);
    undo_is_seen(undone_set_is_the_least, idle);
}

#[test]
fn taking_only_the_list() {
    let listed = |given: Undoing| given.taking(|_, bad| once(bad));
    undo_is_seen(undone_set_is_the_least, listed);
    undo_is_seen(what_is_left_is_the_models, listed);
    undo_is_seen(every_cut_equals_the_list, listed);
}

#[test]
fn taking_direct_readers_only() {
    let direct = |given: Undoing| {
        given.taking(|history, bad| {
            let pairs = history.dependencies(CHANGED).into_iter();
            let readers = pairs.filter(|(_, writer)| bad.contains(writer));
            let mut names: Vec<u16> = readers.map(|(reader, _)| reader).collect();
            names.extend(bad);
            once(&names)
        })
    };
    undo_is_seen(undone_set_is_the_least, direct);
    undo_is_seen(incremental_repair_equals_one_call, direct);
}

#[test]
fn taking_all_that_began_later() {
    let later = |given: Undoing| {
        given.taking(|history, bad| {
            let first = |t: &u16| history.records.iter().position(|r| r.transaction == *t);
            let earliest = bad.iter().filter_map(first).min();
            let mut names = history.commits();
            names.retain(|t| earliest.is_some() && first(t) >= earliest);
            names
        })
    };
    undo_is_seen(undone_set_is_the_least, later);
    undo_is_seen(which_lists_undo_accepts, later);
}

#[test]
fn undoing_forward() {
    let forward = |mut given: Undoing| {
        let mut table = given.table.to_vec();
        let answer = given.again().right()?;
        for r in &History::of(given.journal).records[1..] {
            if r.is_write() && given.status[r.transaction as usize] == 2 {
                table[r.item as usize] = r.before;
            }
        }
        given.table.copy_from_slice(&table);
        Ok(answer)
    };
    undo_is_seen(what_is_left_is_the_models, forward);
    undo_is_seen(which_lists_undo_accepts, forward);
}

#[test]
fn refusing_a_repeated_name() {
    let strict = |given: Undoing| {
        let repeated = once(given.bad).len() < given.bad.len();
        let bad = if repeated { &[0] } else { given.bad };
        Undoing { bad, ..given }.right()
    };
    undo_is_seen(every_cut_equals_the_list, strict);
    undo_is_seen(which_lists_undo_accepts, strict);
}

#[test]
fn asking_for_a_byte_more() {
    let more = |given: Undoing| {
        let out = match given.out {
            [front @ .., _] => front,
            [] => &mut [],
        };
        Undoing { out, ..given }.right()
    };
    undo_is_seen(which_lists_undo_accepts, more);
}

#[test]
fn writing_behind_the_copy() {
    let behind = |mut given: Undoing| {
        let answer = given.again().right()?;
        given.out[answer.bytes as usize..].fill(0);
        Ok(answer)
    };
    undo_is_seen(which_lists_undo_accepts, behind);
}

#[test]
fn counting_no_dropped_ones() {
    let without = |given: Undoing| {
        let answer = given.right()?;
        Ok(Undone {
            aborted: 0,
            ..answer
        })
    };
    undo_is_seen(what_is_left_is_the_models, without);
}

#[test]
fn reading_behind_the_journal() {
    let behind = |given: Undoing| {
        let bad = match given.journal.last() {
            Some(0..=127) => &[0],
            _ => given.bad,
        };
        Undoing { bad, ..given }.right()
    };
    undo_is_seen(bytes_behind_the_last_record_do_not_matter, behind);
}

#[test]
fn setting_no_chain() {
    let unchained = |mut given: Appending| {
        given.right()?;
        let lsn = Record::decode(given.journal).next;
        for record in given.journal.chunks_exact_mut(RECORD_BYTES).skip(1) {
            if Record::decode(record).next == lsn {
                record[4..8].fill(0);
            }
        }
        Ok(())
    };
    append_is_seen(appends_build_what_check_accepts, unchained);
    append_is_seen(journals_that_pass_can_be_rebuilt, unchained);
}

#[test]
fn only_counting_after_the_first_record() {
    let counting = |mut given: Appending| {
        let (journal, table) = (given.journal.to_vec(), given.table.to_vec());
        given.right()?;
        if Record::decode(given.journal).next > 1 {
            given.journal.copy_from_slice(&journal);
            given.table.copy_from_slice(&table);
        }
        Ok(())
    };
    append_is_seen(appends_build_what_check_accepts, counting);
    append_is_seen(journals_that_pass_can_be_rebuilt, counting);
}

#[test]
fn counting_a_refused_record() {
    let counting = |mut given: Appending| {
        let answer = given.right();
        if answer.is_err_and(|refusal| refusal.number == 14) {
            given.counts[0] += 1;
        }
        answer
    };
    append_is_seen(appends_build_what_check_accepts, counting);
}

#[test]
fn counting_no_active_ones() {
    let check = |journal: &[u8], table: &[i32]| plain::check(journal, table).map(|_| 0);
    is_seen(days_as_built_pass, Wrong { check, ..right() });
}

#[test]
fn visiting_one_record_less() {
    let chain = |journal: &[u8], transaction: u16, lsns: &mut [u32]| {
        plain::chain(journal, transaction, lsns).map(|visited| visited.max(2) - 1)
    };
    is_seen(
        chains_are_the_records_of_a_transaction,
        Wrong { chain, ..right() },
    );
}

#[test]
fn keeping_writes_ahead_of_the_bad_read() {
    let ahead = |mut given: Undoing| {
        let history = History::of(given.journal);
        let records = &history.records;
        let initial = history.initial(given.table);
        let answer = given.again().right()?;
        let fed = plain::removal(given.journal, &[]);
        let by = |lsn: u32| records[lsn as usize].transaction;
        let status = &given.status;
        let bad_read = |t: u16| {
            let bad = |w: u32| by(w) != t && status[by(w) as usize] == 2;
            fed.iter()
                .find(|(read, write)| by(*read) == t && write.is_some_and(bad))
        };
        given.table.copy_from_slice(&initial);
        for (lsn, r) in records.iter().enumerate().skip(1) {
            let kept = match status[r.transaction as usize] {
                1 => true,
                2 if !given.bad.contains(&r.transaction) => {
                    bad_read(r.transaction).is_some_and(|(read, _)| lsn < *read as usize)
                }
                _ => false,
            };
            if r.is_write() && kept {
                given.table[r.item as usize] = r.after;
            }
        }
        Ok(answer)
    };
    undo_is_seen(what_is_left_is_the_models, ahead);
}

#[test]
fn passing_over_unknown_names() {
    let lenient = |mut given: Undoing| {
        let commits = match given.again().right() {
            Err(refusal) if refusal.number == 12 => History::of(given.journal).commits(),
            answer => return answer,
        };
        let mut known = given.bad.to_vec();
        known.retain(|name| commits.contains(name));
        Undoing {
            bad: &known,
            ..given
        }
        .right()
    };
    undo_is_seen(which_lists_undo_accepts, lenient);
    undo_is_seen(incremental_repair_equals_one_call, lenient);
}

#[test]
fn counting_into_what_is_there() {
    let adding = |journal: &[u8], counts: &mut [u32; 4]| {
        let mut own = [0; 4];
        plain::count_records(journal, &mut own)?;
        (0..4).for_each(|kind| counts[kind] = counts[kind].wrapping_add(own[kind]));
        Ok(())
    };
    count_is_seen(counts_are_those_of_the_kinds, adding);
    count_is_seen(posting_goes_on_after_a_take_back, adding);
}

#[test]
fn counting_rollbacks_as_commits() {
    let ends = |journal: &[u8], counts: &mut [u32; 4]| {
        plain::count_records(journal, counts)?;
        counts[2] += counts[3];
        counts[3] = 0;
        Ok(())
    };
    count_is_seen(counts_are_those_of_the_kinds, ends);
}

#[test]
fn counting_all_but_the_last_record() {
    let fewer = |journal: &[u8], counts: &mut [u32; 4]| {
        let mut shorter = journal.to_vec();
        if let Some(count @ 1..) = journal.get(4).copied() {
            shorter[4] = count - 1;
        }
        plain::count_records(&shorter, counts)
    };
    count_is_seen(counts_are_those_of_the_kinds, fewer);
    count_is_seen(posting_goes_on_after_a_take_back, fewer);
}

#[test]
fn counting_behind_the_last_record() {
    let behind = |journal: &[u8], counts: &mut [u32; 4]| {
        plain::count_records(journal, counts)?;
        *counts = [0; 4];
        for record in journal.chunks_exact(RECORD_BYTES).skip(1) {
            if let kind @ 1..=4 = record[0] {
                counts[kind as usize - 1] += 1;
            }
        }
        Ok(())
    };
    count_is_seen(bytes_behind_the_last_record_do_not_matter, behind);
    count_is_seen(counts_are_those_of_the_kinds, behind);
}

#[test]
fn counting_other_kinds_too() {
    let others = |journal: &[u8], counts: &mut [u32; 4]| {
        plain::count_records(journal, counts)?;
        let records = Record::decode(journal).next;
        counts[3] = records - counts[0] - counts[1] - counts[2];
        Ok(())
    };
    count_is_seen(counts_are_those_of_the_kinds, others);
}

#[test]
fn checking_what_is_counted() {
    let strict = |journal: &[u8], counts: &mut [u32; 4]| {
        let mut lsns = [0; 3_200];
        match plain::chain(journal, 1, &mut lsns) {
            Err(refusal) if refusal.number < 10 => Err(refusal),
            _ => plain::count_records(journal, counts),
        }
    };
    count_is_seen(counts_are_those_of_the_kinds, strict);
}

#[test]
fn counting_a_torn_journal() {
    let torn = |journal: &[u8], counts: &mut [u32; 4]| {
        let mut longer = journal.to_vec();
        longer.resize(64_020, 0);
        plain::count_records(&longer, counts)
    };
    count_is_seen(counts_are_those_of_the_kinds, torn);
}

#[test]
fn counting_where_refused() {
    let clearing = |journal: &[u8], counts: &mut [u32; 4]| {
        *counts = [0; 4];
        plain::count_records(journal, counts)
    };
    count_is_seen(counts_are_those_of_the_kinds, clearing);
}

#[test]
fn summing_before_less_after() {
    let turned = |journal: &[u8], table: &[u8], bad: &[u8]| {
        with_sum(plain::report(journal, table, bad), |sum| -sum)
    };
    sum_is_seen(turned);
}

#[test]
fn summing_the_writes_of_the_journal() {
    let whole = |journal: &[u8], table: &[u8], bad: &[u8]| {
        with_sum(plain::report(journal, table, bad), |_| {
            let records = History::of(journal).records;
            let writes = records.iter().filter(|r| r.is_write());
            writes
                .map(|r| i64::from(r.after) - i64::from(r.before))
                .sum()
        })
    };
    sum_is_seen(whole);
}

#[test]
fn summing_in_32_bits() {
    let narrow = |journal: &[u8], table: &[u8], bad: &[u8]| {
        with_sum(plain::report(journal, table, bad), |sum| {
            i64::from(sum as i32)
        })
    };
    sum_is_seen(narrow);
}

#[test]
fn feeding_by_every_write() {
    let old = |given: Undoing| given.taking(|history, bad| history.undo_set(bad, EVERY_WRITE));
    undo_is_seen(undone_set_is_the_least, old);
    undo_is_seen(which_lists_undo_accepts, old);
    undo_is_seen(rewrites_draw_nobody_in, old);
    feeding_is_seen(EVERY_WRITE);
}

#[test]
fn feeding_by_rises_only() {
    let rises = |given: Undoing| given.taking(|history, bad| history.undo_set(bad, RISES));
    undo_is_seen(undone_set_is_the_least, rises);
    undo_is_seen(what_is_left_is_the_models, rises);
    feeding_is_seen(RISES);
}

#[test]
fn feeding_by_falls_only() {
    let falls = |given: Undoing| given.taking(|history, bad| history.undo_set(bad, FALLS));
    undo_is_seen(undone_set_is_the_least, falls);
    undo_is_seen(what_is_left_is_the_models, falls);
    feeding_is_seen(FALLS);
}

#[test]
fn holding_the_after_against_the_opening_amount() {
    let opening =
        |given: Undoing| given.taking(|history, bad| history.undo_set(bad, NOT_THE_OPENING));
    undo_is_seen(undone_set_is_the_least, opening);
    undo_is_seen(rewrites_draw_nobody_in, opening);
    feeding_is_seen(NOT_THE_OPENING);
}

#[test]
fn holding_the_after_against_the_last_amount_written() {
    let last =
        |given: Undoing| given.taking(|history, bad| history.undo_set(bad, NOT_THE_LAST_WRITTEN));
    undo_is_seen(undone_set_is_the_least, last);
    feeding_is_seen(NOT_THE_LAST_WRITTEN);
}

/// By this 5 to 7 to 5 in one transaction does not feed.
#[test]
fn feeding_by_net_changes_only() {
    let net = |given: Undoing| given.taking(|history, bad| history.undo_set(bad, NET_CHANGES));
    undo_is_seen(undone_set_is_the_least, net);
    feeding_is_seen(NET_CHANGES);
}

#[test]
fn feeding_by_nothing_behind_a_rewrite() {
    let hidden = |given: Undoing| {
        given.taking(|history, bad| history.undo_set(bad, NOTHING_BEHIND_A_REWRITE))
    };
    undo_is_seen(undone_set_is_the_least, hidden);
    undo_is_seen(rewrites_draw_nobody_in, hidden);
    feeding_is_seen(NOTHING_BEHIND_A_REWRITE);
}

#[test]
fn comparing_the_lower_halves() {
    let halves = |given: Undoing| given.taking(|history, bad| history.undo_set(bad, LOWER_HALVES));
    undo_is_seen(undone_set_is_the_least, halves);
    feeding_is_seen(LOWER_HALVES);
}

/// A transaction has read what it rewrites, so undo gives the same; the feeding write differs.
#[test]
fn feeding_by_own_rewrites() {
    feeding_is_seen(OWN_REWRITES);
}

/// The last committed amount: the feeding write is another one of the same transaction.
#[test]
fn holding_the_after_against_the_amount_found() {
    feeding_is_seen(NOT_THE_FOUND);
}

#[test]
fn leaving_rewrites_out_of_the_copy() {
    let without = |mut given: Undoing| {
        let lent = given.out.to_vec();
        let answer = given.again().right()?;
        let copy = History::of(given.out).without_rewrites();
        given.out.copy_from_slice(&lent);
        given.out[..copy.len()].copy_from_slice(&copy);
        Ok(Undone {
            bytes: copy.len() as u64,
            ..answer
        })
    };
    undo_is_seen(what_is_left_is_the_models, without);
    undo_is_seen(rewrites_draw_nobody_in, without);
}

#[test]
fn keeping_a_listed_transaction_of_rewrites() {
    let idle = |given: Undoing| {
        let records = History::of(given.journal).records;
        let changes = |t: &u16| {
            let mut own = records[1..].iter().filter(|r| r.transaction == *t);
            own.any(|r| r.is_write() && !is_rewrite(r))
        };
        let bad: Vec<u16> = given.bad.iter().copied().filter(changes).collect();
        Undoing { bad: &bad, ..given }.right()
    };
    undo_is_seen(undone_set_is_the_least, idle);
    undo_is_seen(which_lists_undo_accepts, idle);
}
