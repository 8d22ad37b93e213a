//! What documents 01 and 02 say of all days, as properties of an implementation. Each is tried on the
//! inputs of one seed; it panics where it does not hold, and answers how many cases it tried.

pub mod counting;
pub mod cutting;
pub mod history;
pub mod loans;
pub mod posting;
pub mod reporting;
pub mod rewriting;
pub mod undoing;

use crate::compare::Implementation;
use crate::run::{is_whole, on_threads, scaled, Trying};

struct Property<I> {
    name: &'static str,
    /// The seeds of a run of 20,000 days, and how many cases they must have at the least.
    seeds: u64,
    cases: u64,
    holds: fn(&I, u64) -> u64,
}

fn all<I: Implementation>() -> [Property<I>; 13] {
    let property = |name, seeds, cases, holds| Property {
        name,
        seeds,
        cases,
        holds,
    };
    [
        property(
            "days as built pass",
            6_000,
            3_000,
            posting::days_as_built_pass,
        ),
        property(
            "appends build what check accepts",
            1_500,
            50_000,
            posting::appends_build_what_check_accepts,
        ),
        property(
            "journals that pass can be rebuilt",
            3_000,
            1_000,
            posting::journals_that_pass_can_be_rebuilt,
        ),
        property(
            "chains are the records of a transaction",
            2_000,
            2_000,
            posting::chains_are_the_records_of_a_transaction,
        ),
        property(
            "counts are those of the kinds",
            6_000,
            6_000,
            counting::counts_are_those_of_the_kinds,
        ),
        property(
            "posting goes on after a take-back",
            1_000,
            1_000,
            counting::posting_goes_on_after_a_take_back,
        ),
        property(
            "which lists undo accepts",
            12_000,
            4_000,
            undoing::which_lists_undo_accepts,
        ),
        property(
            "undone set is the least",
            3_000,
            30_000,
            undoing::undone_set_is_the_least,
        ),
        property(
            "what is left is the delete-transaction model's",
            1_500,
            1_000,
            undoing::what_is_left_is_the_models,
        ),
        property(
            "rewrites draw nobody in",
            1_500,
            1_000,
            rewriting::rewrites_draw_nobody_in,
        ),
        property(
            "incremental repair equals one call",
            5_000,
            3_000,
            cutting::incremental_repair_equals_one_call,
        ),
        property(
            "every cut of a list equals the list",
            1_000,
            4_000,
            cutting::every_cut_equals_the_list,
        ),
        property(
            "bytes behind the last record do not matter",
            4_000,
            2_000,
            loans::bytes_behind_the_last_record_do_not_matter,
        ),
    ]
}

/// Tries every property; answers a line for each.
pub fn hold<I: Implementation + Sync>(calls: &I) -> String {
    let mut lines = String::new();
    for property in all::<I>() {
        let seeds = scaled(property.seeds);
        let cases = on_threads(seeds, |seeds| {
            let tried = seeds.map(|seed| {
                let _trying = Trying(property.name, seed);
                (property.holds)(calls, seed)
            });
            tried.sum::<u64>()
        });
        let cases: u64 = cases.iter().sum();
        assert!(
            cases >= property.cases || !is_whole(),
            "{}: only {cases} cases",
            property.name
        );
        lines += &format!("{}: {seeds} days drawn, {cases} cases\n", property.name);
    }
    lines
}
