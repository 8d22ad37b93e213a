//! A sale of 180 pence, posted and then taken back; another, of 150 pence, posted on to what is left.

use journal::{append, journal_bytes, kind, start, undo};
use journal::{Counts, Item, Refusal, Transaction, STATUS_BYTES};

/// A sale that takes these pence from item 0: a read, a write and a commit.
fn sell(
    journal: &mut [u8],
    table: &mut [i32],
    counts: &mut Counts,
    sale: Transaction,
    pence: i32,
) -> Result<(), Refusal> {
    let after = table[0] - pence;
    for (kind, after) in [(kind::READ, 0), (kind::WRITE, after), (kind::COMMIT, 0)] {
        append(journal, table, counts, kind, sale, Item(0), after)?;
    }
    Ok(())
}

fn main() -> Result<(), Refusal> {
    let (mut journal, mut table, mut counts) = ([0; journal_bytes(3)], [500], Counts::default());
    start(&mut journal, 1)?;
    sell(&mut journal, &mut table, &mut counts, Transaction(1), 180)?;

    let (mut marks, mut out) = ([0; STATUS_BYTES], [0; journal_bytes(3)]);
    let bad = [Transaction(1)];
    let totals = undo(&journal, &mut table, &bad, &mut marks, &mut out)?;
    println!("{} taken back, item 0 is {}", totals.undone, table[0]);

    // The copy is at the front of `out`, with room behind it; the table goes with it, and so do the
    // copy's counts.
    let mut counts = Counts::of(&out)?;
    sell(&mut out, &mut table, &mut counts, Transaction(2), 150)?;
    println!("posted on, item 0 is {}", table[0]);
    Ok(())
}
