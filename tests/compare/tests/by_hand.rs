//! Days written by hand, each with its answer from documents 01 and 02, asked of the proved library
//! and, for the report, of the built program.

#[path = "../../plain/tests/by_hand/boundaries.rs"]
mod boundaries;
#[path = "../../plain/tests/by_hand/common.rs"]
mod common;
#[path = "../../plain/tests/by_hand/counting.rs"]
mod counting;
#[path = "../../plain/tests/by_hand/cutting.rs"]
mod cutting;
#[path = "../../plain/tests/by_hand/example.rs"]
mod example;
#[path = "../../plain/tests/by_hand/limits.rs"]
mod limits;
#[path = "../../plain/tests/by_hand/mistakes.rs"]
mod mistakes;
mod program;
#[path = "../../plain/tests/by_hand/readings.rs"]
mod readings;
#[path = "../../plain/tests/by_hand/rewriting.rs"]
mod rewriting;

const CALLS: compare::Proved = compare::Proved;

/// What the program prints; a file without bytes is missing.
fn report(journal: &[u8], table: &[u8], bad: &[u8]) -> Vec<u8> {
    program::printed([journal, table, bad].map(|file| Some(file).filter(|file| !file.is_empty())))
}
