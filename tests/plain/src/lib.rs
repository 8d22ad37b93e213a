//! The plain second implementation of document 01, "The depot journal and the take-back", as
//! document 02's requests amend it.
//!
//! Each function is written straight from a sentence of the documents and scans the earlier
//! records wherever that is plainest. It is there to be compared with, not to be fast.
//! `days` draws the inputs for that comparison, `compare` runs all calls over one of them.
//! `properties` has what the documents say of all days, for any implementation of the calls.
//!
//! Every call takes any bytes whatever. A refused call has written to nothing it was lent.

mod append;
mod chain;
pub mod compare;
pub mod days;
pub mod format;
pub mod projection;
pub mod properties;
pub mod refusal;
mod report;
pub mod run;
mod undo;
mod validate;

pub use append::{append, count_records, start};
pub use chain::chain;
pub use projection::removal;
pub use refusal::Refusal;
pub use report::report;
pub use undo::{undo, Undone};
pub use validate::check;
