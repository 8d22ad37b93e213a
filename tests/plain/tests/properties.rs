//! The properties of all days, tried on the plain implementation; and that the days drawn for
//! them are worth trying.

use plain::compare::{undos_in_turn, Plain};
use plain::days::{day, undo_sequence};
use plain::format::encode_all;
use plain::properties::history::{whole_length, History};
use plain::properties::reporting::{sum_of_day, Sums};
use plain::properties::rewriting::{reads_are_fed_by_changes, Rewrites};
use plain::run::{is_whole, on_threads, scaled, Trying};

#[test]
fn every_property_holds() {
    print!("{}", plain::properties::hold(&Plain));
}

#[test]
fn the_sum_is_what_the_tables_differ_by() {
    let mut sums = Sums::default();
    let parts = on_threads(scaled(6_000), |seeds| {
        let mut part = Sums::default();
        for seed in seeds {
            let _trying = Trying("sum", seed);
            sum_of_day(&Plain, seed)
                .into_iter()
                .for_each(|sum| part.note(sum));
        }
        part
    });
    parts.into_iter().for_each(|part| sums.add(part));
    print!("{}", sums.line());
    assert!(!is_whole() || sums.fewest() > 100, "{sums:?}");
}

#[test]
fn each_read_is_fed_by_a_change() {
    let seeds = scaled(3_000);
    let reads = on_threads(seeds, |seeds| {
        let tried = seeds.map(|seed| {
            let _trying = Trying("feeding", seed);
            reads_are_fed_by_changes(plain::removal, seed)
        });
        tried.sum::<u64>()
    });
    let reads: u64 = reads.iter().sum();
    println!("feeding: {seeds} days drawn, {reads} reads");
    assert!(!is_whole() || reads > 30_000, "{reads}");
}

/// Rewrites of each kind are among the days, and each other rule of what feeds is told from the
/// right one. The large days are left out.
#[test]
fn days_tell_the_rules_of_feeding_apart() {
    let mut rewrites = Rewrites::default();
    let parts = on_threads(scaled(20_000), |seeds| {
        let mut part = Rewrites::default();
        for seed in seeds.filter(|seed| seed % 100 != 0) {
            let _trying = Trying("rewrites", seed);
            let mut day = day(seed);
            let undo = plain::undo(
                &day.journal,
                &mut day.table,
                &day.bad,
                &mut day.status,
                &mut day.out,
            );
            if undo.is_ok() {
                part.note(&day.journal, &day.bad, &day.status);
            }
        }
        part
    });
    parts.into_iter().for_each(|part| rewrites.add(part));
    print!("{}", rewrites.lines());
    assert!(!is_whole() || rewrites.fewest() > 10, "{rewrites:?}");
}

#[test]
fn same_seed_same_day() {
    for seed in [0, 1, 2, 3, 7, 100, 101, u64::MAX] {
        assert_eq!(day(seed), day(seed));
    }
}

/// Limits and extremes are among the days.
#[test]
fn days_reach_the_limits() {
    let (mut records_met, mut transactions_met, mut items_met, mut undone_met) = (0, 0, 0, 0);
    let (mut lowest, mut highest) = (0, 0);
    let large = (0..3_000).step_by(100).map(day);
    for day in large.filter(|day| day.known.intact) {
        let records = &History::of(&day.journal).records[1..];
        let mut numbers: Vec<u16> = records.iter().map(|r| r.transaction).collect();
        numbers.sort();
        numbers.dedup();
        records_met = records_met.max(records.len());
        transactions_met = transactions_met.max(numbers.len());
        items_met = items_met.max(day.table.len());
        undone_met = undone_met.max(day.known.undone.len());
        for r in records {
            lowest = lowest.min(r.before).min(r.after);
            highest = highest.max(r.before).max(r.after);
        }
    }
    assert_eq!((records_met, items_met), (3_200, 1_024));
    assert_eq!(transactions_met, 1_024);
    assert!(undone_met > 500, "{undone_met}");
    assert_eq!((lowest, highest), (i32::MIN, i32::MAX));
}

/// Sequences of any number of accepted calls, from none to five, are among those drawn.
#[test]
fn sequences_of_each_length() {
    let mut by_length = [0; 6];
    for sequence in (0..5_000).map(undo_sequence) {
        let steps = undos_in_turn(&Plain, &sequence);
        let accepted = steps.iter().filter(|step| step.answer.answer.is_ok());
        by_length[accepted.count()] += 1;
    }
    assert!(by_length.iter().all(|&met| met > 20), "{by_length:?}");
}

/// A record read and written again has the same bytes.
#[test]
fn records_round_trip() {
    for day in (1..200).map(day).filter(|day| day.known.intact) {
        let whole = &day.journal[..whole_length(&day.journal)];
        assert_eq!(encode_all(&History::of(whole).records), whole);
    }
}
