//! The refusals (document 01, "Reasons for handing it back"): a number and a place.

/// A refused call's answer.
#[derive(Debug, Clone, Copy, PartialEq, Eq, PartialOrd, Ord, Hash)]
pub struct Refusal {
    pub number: u32,
    pub place: u64,
}

/// 01: torn.
pub const TRUNCATED: u32 = 1;
/// 01: head.
pub const BAD_HEADER: u32 = 2;
/// 01: table.
pub const TABLE_LENGTH: u32 = 3;
/// 01: smudge.
pub const MALFORMED: u32 = 4;
/// 01: chain.
pub const BROKEN_CHAIN: u32 = 5;
/// 01: closed.
pub const AFTER_TERMINATION: u32 = 6;
/// 01: crossed.
pub const CONFLICT: u32 = 7;
/// 01: blind.
pub const BLIND_WRITE: u32 = 8;
/// 01: before.
pub const BEFORE_IMAGE: u32 = 9;
/// 01: close.
pub const FINAL_STATE: u32 = 10;
/// 01: open.
pub const ACTIVE_AT_END: u32 = 11;
/// 01: unknown.
pub const UNKNOWN: u32 = 12;
/// 01: marks.
pub const STATUS_LENGTH: u32 = 13;
/// 01: paper.
pub const OUTPUT_LENGTH: u32 = 14;
/// 01: tally.
pub const COUNTS: u32 = 15;

/// The refusal with this number at this place.
pub(crate) fn refuse<T>(number: u32, place: usize) -> Result<T, Refusal> {
    Err(Refusal {
        number,
        place: place as u64,
    })
}
