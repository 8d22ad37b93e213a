//! The example day of document 01: built record by record, checked, one slip of it, then taken back.

use journal::{append, chain, check, journal_bytes, kind, start, status, undo};
use journal::{Counts, Item, Lsn, Refusal, Transaction, RECORD_BYTES, STATUS_BYTES};

/// Kind, transaction, item and after of each record.
const DAY: [(u8, u16, u32, i32); 11] = [
    (kind::READ, 1, 0, 0),
    (kind::WRITE, 1, 0, 320),
    (kind::READ, 1, 1, 0),
    (kind::WRITE, 1, 1, 1),
    (kind::COMMIT, 1, 0, 0),
    (kind::READ, 2, 1, 0),
    (kind::READ, 3, 2, 0),
    (kind::WRITE, 2, 1, 0),
    (kind::WRITE, 3, 2, 1180),
    (kind::COMMIT, 2, 0, 0),
    (kind::COMMIT, 3, 0, 0),
];

fn words<T: ToString>(values: &[T]) -> String {
    let words: Vec<String> = values.iter().map(T::to_string).collect();
    words.join(" ")
}

fn main() -> Result<(), Refusal> {
    let mut journal = [0; journal_bytes(DAY.len())];
    let mut table = [500, 0, 1000];
    let mut counts = Counts::default();

    start(&mut journal, table.len() as u32)?;
    for (kind, transaction, item, after) in DAY {
        append(
            &mut journal,
            &mut table,
            &mut counts,
            kind,
            Transaction(transaction),
            Item(item),
            after,
        )?;
    }
    println!(
        "journal: {} reads, {} writes, {} commits, {} aborts",
        counts.reads, counts.writes, counts.commits, counts.aborts
    );
    let record = &journal[2 * RECORD_BYTES..3 * RECORD_BYTES];
    let bytes: Vec<String> = record.iter().map(|byte| format!("{byte:02X}")).collect();
    println!("record 2: {}", bytes.join(" "));
    println!("table: {}", words(&table));
    println!("check: {} active", check(&journal, &table)?);

    let mut lsns = [Lsn(0); DAY.len()];
    let visited = chain(&journal, Transaction(2), &mut lsns)?;
    println!("chain of 2: {}", words(&lsns[..visited]));

    let mut marks = [0; STATUS_BYTES];
    let mut out = [0; journal_bytes(DAY.len())];
    let unknown = [Transaction(4)];
    if let Err(refusal) = undo(&journal, &mut table, &unknown, &mut marks, &mut out) {
        println!("undo of 4: refused, {refusal}");
    }
    let bad = [Transaction(1)];
    let totals = undo(&journal, &mut table, &bad, &mut marks, &mut out)?;
    println!(
        "undo of 1: {} surviving, {} undone, {} aborted, a copy of {} bytes",
        totals.surviving, totals.undone, totals.aborted, totals.bytes
    );
    for (transaction, mark) in marks.iter().enumerate() {
        match *mark {
            status::SURVIVING => println!("transaction {transaction}: survives"),
            status::UNDONE => println!("transaction {transaction}: undone"),
            _ => {}
        }
    }
    println!("table: {}", words(&table));
    println!(
        "check of the copy: {} active",
        check(&out[..totals.bytes], &table)?
    );
    Ok(())
}
