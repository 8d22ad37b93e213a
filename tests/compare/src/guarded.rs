//! A loan between two runs of guard cells. With GUARDS=0 in the environment a loan is a piece of
//! memory of its own instead, so that valgrind sees a load beside it too.

use std::fmt::Debug;
use std::sync::OnceLock;

/// Guard cells on each side; odd, so that a run of bytes begins at an odd offset.
const CELLS: usize = 63;

/// The guard cells of this run.
fn cells() -> usize {
    static CHOSEN: OnceLock<usize> = OnceLock::new();
    *CHOSEN.get_or_init(|| match std::env::var("GUARDS").as_deref() {
        Ok("0") => 0,
        _ => CELLS,
    })
}

/// What is lent, with the value of its guard cells.
pub trait Cell: Copy + PartialEq + Debug {
    const GUARD: Self;
}

impl Cell for u8 {
    const GUARD: u8 = 0xC5;
}

impl Cell for u16 {
    const GUARD: u16 = 0xC5A3;
}

impl Cell for u32 {
    const GUARD: u32 = 0xC5A3_0F99;
}

impl Cell for i32 {
    const GUARD: i32 = -0x3A5C_F067;
}

impl Cell for u64 {
    const GUARD: u64 = 0xC5A3_0F99_7E11_2BD4;
}

/// A copy of a slice with guard cells on both sides.
pub struct Guarded<T> {
    cells: Vec<T>,
    guards: usize,
}

impl<T: Cell> Guarded<T> {
    pub fn new(slice: &[T]) -> Guarded<T> {
        Guarded::between(cells(), slice)
    }

    fn between(guards: usize, slice: &[T]) -> Guarded<T> {
        let mut cells = vec![T::GUARD; guards + slice.len() + guards];
        cells[guards..guards + slice.len()].copy_from_slice(slice);
        Guarded { cells, guards }
    }

    /// The loan.
    pub fn lent(&mut self) -> &mut [T] {
        let end = self.cells.len() - self.guards;
        &mut self.cells[self.guards..end]
    }

    /// No guard cell has changed.
    fn intact(&self) -> bool {
        let end = self.cells.len() - self.guards;
        let guards = self.cells[..self.guards].iter().chain(&self.cells[end..]);
        guards.copied().all(|cell| cell == T::GUARD)
    }

    /// The loan afterwards.
    pub fn back(&self) -> &[T] {
        assert!(self.intact(), "a store outside the loan");
        &self.cells[self.guards..self.cells.len() - self.guards]
    }

    /// Copies the loan back to where it came from.
    pub fn hand_back(&self, slice: &mut [T]) {
        slice.copy_from_slice(self.back());
    }
}

/// One number with guard cells on both sides. It starts as a guard value, so that it shows
/// whether it was written.
pub struct Number<T>(Guarded<T>);

impl<T: Cell> Number<T> {
    pub fn unwritten() -> Number<T> {
        Number(Guarded::new(&[T::GUARD]))
    }

    pub fn lent(&mut self) -> &mut T {
        &mut self.0.lent()[0]
    }

    pub fn back(&self) -> T {
        self.0.back()[0]
    }
}

#[cfg(test)]
mod tests {
    use super::*;

    #[test]
    fn a_store_in_the_loan_is_handed_back() {
        let mut lent = Guarded::between(CELLS, &[1u8, 2]);
        lent.lent()[1] = 3;
        assert_eq!(lent.back(), [1, 3]);
    }

    #[test]
    fn a_store_on_either_side_of_the_loan_is_seen() {
        for cell in [0, CELLS - 1, CELLS + 2, 2 * CELLS + 1] {
            let mut lent = Guarded::between(CELLS, &[1i32, 2]);
            lent.cells[cell] = 0;
            assert!(!lent.intact());
        }
    }

    #[test]
    fn a_run_of_bytes_begins_at_an_odd_address() {
        let mut lent = Guarded::between(CELLS, &[1u8, 2]);
        assert_eq!(lent.lent().as_ptr() as usize % 2, 1);
    }
}
