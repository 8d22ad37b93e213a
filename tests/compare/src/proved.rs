//! The proved library as an implementation to compare. Every loan stands between guard cells,
//! and what is lent to be read is compared afterwards.

use crate::calls;
use crate::guarded::{Guarded, Number};
use plain::compare::Implementation;
use plain::{Refusal, Undone};

/// The functions of the static library.
pub struct Proved;

/// The answer of a call that returned this number.
fn answered<T>(number: u32, answer: u64, accepted: impl FnOnce(u64) -> T) -> Result<T, Refusal> {
    match number {
        0 => Ok(accepted(answer)),
        _ => Err(Refusal {
            number,
            place: answer,
        }),
    }
}

/// An accepted start, append or count answers 0.
fn nothing(answer: u64) {
    assert_eq!(answer, 0);
}

fn count(answer: u64) -> u32 {
    u32::try_from(answer).unwrap()
}

impl Implementation for Proved {
    fn start(&self, journal: &mut [u8], items: u32) -> Result<(), Refusal> {
        let mut lent = Guarded::new(journal);
        let mut answer = Number::unwritten();
        let number = calls::start(lent.lent(), items, answer.lent());
        lent.hand_back(journal);
        answered(number, answer.back(), nothing)
    }

    fn append(
        &self,
        journal: &mut [u8],
        table: &mut [i32],
        counts: &mut [u32; 4],
        kind: u8,
        transaction: u16,
        item: u32,
        after: i32,
    ) -> Result<(), Refusal> {
        let mut lent = Guarded::new(journal);
        let mut amounts = Guarded::new(table);
        let mut by_kind = Guarded::new(counts);
        let mut answer = Number::unwritten();
        let number = calls::append(
            lent.lent(),
            amounts.lent(),
            by_kind.lent().try_into().unwrap(),
            kind,
            transaction,
            item,
            after,
            answer.lent(),
        );
        lent.hand_back(journal);
        amounts.hand_back(table);
        by_kind.hand_back(counts);
        answered(number, answer.back(), nothing)
    }

    fn check(&self, journal: &[u8], table: &[i32]) -> Result<u32, Refusal> {
        let mut lent = Guarded::new(journal);
        let mut amounts = Guarded::new(table);
        let mut answer = Number::unwritten();
        let number = calls::check(lent.lent(), amounts.lent(), answer.lent());
        assert_eq!(lent.back(), journal);
        assert_eq!(amounts.back(), table);
        answered(number, answer.back(), count)
    }

    fn chain(&self, journal: &[u8], transaction: u16, lsns: &mut [u32]) -> Result<u32, Refusal> {
        let mut lent = Guarded::new(journal);
        let mut list = Guarded::new(lsns);
        let mut answer = Number::unwritten();
        let number = calls::chain(lent.lent(), transaction, list.lent(), answer.lent());
        assert_eq!(lent.back(), journal);
        list.hand_back(lsns);
        answered(number, answer.back(), count)
    }

    fn undo(
        &self,
        journal: &[u8],
        table: &mut [i32],
        bad: &[u16],
        status: &mut [u8],
        out: &mut [u8],
    ) -> Result<Undone, Refusal> {
        let mut lent = Guarded::new(journal);
        let mut amounts = Guarded::new(table);
        let mut listed = Guarded::new(bad);
        let mut marks = Guarded::new(status);
        let mut paper = Guarded::new(out);
        let mut counts = [(); 3].map(|()| Number::unwritten());
        let [surviving, undone, aborted] = &mut counts;
        let mut answer = Number::unwritten();
        let number = calls::undo(
            lent.lent(),
            amounts.lent(),
            listed.lent(),
            marks.lent(),
            paper.lent(),
            surviving.lent(),
            undone.lent(),
            aborted.lent(),
            answer.lent(),
        );
        assert_eq!(lent.back(), journal);
        assert_eq!(listed.back(), bad);
        amounts.hand_back(table);
        marks.hand_back(status);
        paper.hand_back(out);
        let [surviving, undone, aborted] = counts.map(|count| count.back());
        if number != 0 {
            // The counts are written only where the call is accepted.
            let unwritten = Number::unwritten().back();
            assert_eq!([surviving, undone, aborted], [unwritten; 3]);
        }
        answered(number, answer.back(), |bytes| Undone {
            surviving,
            undone,
            aborted,
            bytes,
        })
    }

    fn count_records(&self, journal: &[u8], counts: &mut [u32; 4]) -> Result<(), Refusal> {
        let mut lent = Guarded::new(journal);
        let mut by_kind = Guarded::new(counts);
        let mut answer = Number::unwritten();
        let number = calls::count_records(
            lent.lent(),
            by_kind.lent().try_into().unwrap(),
            answer.lent(),
        );
        assert_eq!(lent.back(), journal);
        by_kind.hand_back(counts);
        answered(number, answer.back(), nothing)
    }

    /// The report is no call of the interface; the program is tried on its files.
    fn report(&self, _: &[u8], _: &[u8], _: &[u8]) -> Vec<u8> {
        Vec::new()
    }
}
