//! Prints the journal of a folder as text for a person to look at: `show FOLDER`, with journal.bin and
//! table.bin in it. A journal that check refuses is printed too, as far as its bytes go.

use journal::{check, kind, records, Head, Record};
use std::error::Error;
use std::path::PathBuf;
use std::{env, fs};

/// What a record does, in document 01's words.
fn act(record: &Record) -> String {
    let Record {
        item,
        before,
        after,
        ..
    } = record;
    match record.kind {
        kind::READ => format!("reads item {item}"),
        kind::WRITE => format!("writes item {item}: {before} to {after}"),
        kind::COMMIT => "commits".to_string(),
        kind::ABORT => "rolls back".to_string(),
        other => format!("has kind {other}"),
    }
}

fn main() -> Result<(), Box<dyn Error>> {
    let Some(folder) = env::args_os().nth(1).map(PathBuf::from) else {
        return Err("usage: show FOLDER".into());
    };
    let journal = fs::read(folder.join("journal.bin"))?;
    let table: Vec<i32> = fs::read(folder.join("table.bin"))?
        .chunks_exact(4)
        .map(|amount| i32::from_le_bytes(amount.try_into().unwrap()))
        .collect();

    if let Some(head) = Head::of(&journal) {
        println!("records {}, items {}", head.records, head.items);
    }
    for (lsn, record) in records(&journal) {
        let next = match record.next.0 {
            0 => String::new(),
            next => format!(", next {next}"),
        };
        let sale = record.transaction;
        println!("{lsn:>4}  sale {sale:<4}  {}{next}", act(&record));
    }
    for (item, amount) in table.iter().enumerate() {
        println!("item {item}: {amount}");
    }
    match check(&journal, &table) {
        Ok(open) => println!("check: passes, {open} open"),
        Err(refusal) => println!("check: refused, {refusal}"),
    }
    Ok(())
}
