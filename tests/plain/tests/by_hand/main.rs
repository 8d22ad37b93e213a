//! Days written by hand, each with its answer from documents 01 and 02, asked of the plain
//! implementation.

mod boundaries;
mod common;
mod counting;
mod cutting;
mod example;
mod limits;
mod mistakes;
mod readings;
mod rewriting;

pub use plain::report;

const CALLS: plain::compare::Plain = plain::compare::Plain;
