//! A take-back whose result is kept: `keep DEPOT SALE...`.
//!
//! DEPOT is a folder with a folder for each state of the day: day-1 as it was posted, day-2 after the first
//! take-back, and so on. Each has journal.bin and table.bin, and after a take-back taken.bin, the sales
//! taken back so far (two bytes each, little-endian): they are struck from the next list, since the copy
//! does not know them.
//!
//! The highest day is the one that holds. The next is written into a folder that is no day, its files and
//! the folder are flushed to the disk, one rename gives it a name that is not yet used, and the depot's
//! folder is flushed. So wherever the program or the machine stops, the highest day is the old or the new
//! one, whole, and no earlier one is touched. A folder part-N that is left then is removed by the next
//! call. One process at a time writes to a depot's folder.

use journal::{check, status, undo, Refusal, Transaction, Undone, STATUS_BYTES};
use std::ffi::OsStr;
use std::fs::{self, File, OpenOptions};
use std::io::{self, Write};
use std::path::{Path, PathBuf};
use std::process::ExitCode;
use std::{env, process};

/// What a day's folder holds.
struct Day {
    journal: Vec<u8>,
    table: Vec<i32>,
    taken: Vec<Transaction>,
}

/// The error with the path that it is about.
fn about(path: &Path) -> impl FnOnce(io::Error) -> io::Error + '_ {
    move |error| io::Error::new(error.kind(), format!("{}: {error}", path.display()))
}

/// The number behind "day-" or "part-" if the name is such a one: "day-7", not "day-07".
fn number_in(name: &OsStr, front: &str) -> Option<u32> {
    let digits = name.to_str()?.strip_prefix(front)?;
    let number: u32 = digits.parse().ok()?;
    (number > 0 && number.to_string() == digits).then_some(number)
}

/// The number of the highest day. A folder that is being written has another name.
fn highest(depot: &Path) -> io::Result<u32> {
    let mut highest = None;
    for entry in fs::read_dir(depot).map_err(about(depot))? {
        highest = highest.max(number_in(&entry?.file_name(), "day-"));
    }
    let none = || about(depot)(io::Error::new(io::ErrorKind::NotFound, "no day-1"));
    highest.ok_or_else(none)
}

/// The numbers of a file of little-endian numbers of N bytes each.
fn numbers<const N: usize, T>(path: &Path, number: fn([u8; N]) -> T) -> io::Result<Vec<T>> {
    let bytes = fs::read(path).map_err(about(path))?;
    let whole = bytes.chunks_exact(N);
    if !whole.remainder().is_empty() {
        let ragged = io::Error::new(io::ErrorKind::InvalidData, "ends in part of a number");
        return Err(about(path)(ragged));
    }
    Ok(whole
        .map(|bytes| number(bytes.try_into().unwrap()))
        .collect())
}

fn load(folder: &Path) -> io::Result<Day> {
    let journal = folder.join("journal.bin");
    let taken = folder.join("taken.bin");
    Ok(Day {
        journal: fs::read(&journal).map_err(about(&journal))?,
        table: numbers(&folder.join("table.bin"), i32::from_le_bytes)?,
        taken: match taken.try_exists().map_err(about(&taken))? {
            true => numbers(&taken, |two| Transaction(u16::from_le_bytes(two)))?,
            false => Vec::new(),
        },
    })
}

/// The day after a take-back of these sales, those taken back before struck from the list.
fn take_back(day: &Day, sales: &[Transaction]) -> Result<(Day, Undone), Refusal> {
    let struck = |sale: &&Transaction| !day.taken.contains(sale);
    let bad: Vec<Transaction> = sales.iter().filter(struck).copied().collect();
    let (mut table, mut marks) = (day.table.clone(), [0; STATUS_BYTES]);
    let mut copy = vec![0; day.journal.len()];
    let totals = undo(&day.journal, &mut table, &bad, &mut marks, &mut copy)?;
    copy.truncate(totals.bytes);
    check(&copy, &table)?;
    let undone = (0..).zip(marks).filter(|(_, mark)| *mark == status::UNDONE);
    let mut taken = day.taken.clone();
    taken.extend(undone.map(|(sale, _)| Transaction(sale)));
    let journal = copy;
    Ok((
        Day {
            journal,
            table,
            taken,
        },
        totals,
    ))
}

/// A new file, on the disk when this returns.
fn write(path: &Path, bytes: &[u8]) -> io::Result<()> {
    let mut file = OpenOptions::new().write(true).create_new(true).open(path)?;
    file.write_all(bytes)?;
    file.sync_all()
}

/// The names in a folder, on the disk when this returns.
fn flush(folder: &Path) -> io::Result<()> {
    File::open(folder)?.sync_all()
}

/// A new folder that is no day. Those that a stop has left are removed first. Each is renamed before its
/// files go: a program that is still at work on it fails then, and keeps no day with files missing.
fn make_part(depot: &Path) -> io::Result<PathBuf> {
    let part = depot.join(format!("part-{}", process::id()));
    if part.try_exists()? {
        fs::remove_dir_all(&part)?;
    }
    for entry in fs::read_dir(depot)? {
        let name = entry?.file_name();
        if number_in(&name, "part-").is_some() {
            fs::rename(depot.join(name), &part)?;
            fs::remove_dir_all(&part)?;
        }
    }
    fs::create_dir(&part)?;
    Ok(part)
}

/// Writes a day into a new folder, on the disk when this returns.
fn fill(folder: &Path, day: &Day) -> io::Result<()> {
    let table = day.table.iter().flat_map(|amount| amount.to_le_bytes());
    let taken = day.taken.iter().flat_map(|sale| sale.0.to_le_bytes());
    write(&folder.join("journal.bin"), &day.journal)?;
    write(&folder.join("table.bin"), &table.collect::<Vec<u8>>())?;
    write(&folder.join("taken.bin"), &taken.collect::<Vec<u8>>())?;
    flush(folder)
}

/// Keeps a day under this number, which no day has yet.
fn store(depot: &Path, number: u32, day: &Day) -> io::Result<()> {
    let part = make_part(depot).map_err(about(depot))?;
    let folder = depot.join(format!("day-{number}"));
    // Where another program was faster, the name is a folder that is not empty, and rename fails.
    let kept = fill(&part, day).and_then(|()| fs::rename(&part, &folder));
    if let Err(error) = kept {
        let _ = fs::remove_dir_all(&part);
        return Err(about(&part)(error));
    }
    flush(depot)
}

fn run(depot: &Path, sales: &[Transaction]) -> Result<String, Box<dyn std::error::Error>> {
    let number = highest(depot)?;
    let day = load(&depot.join(format!("day-{number}")))?;
    let (left, totals) = take_back(&day, sales)?;
    let next = number.checked_add(1).ok_or("no number is left")?;
    store(depot, next, &left)?;
    let Undone {
        surviving, undone, ..
    } = totals;
    Ok(format!("day-{next}: {undone} taken back, {surviving} kept"))
}

fn main() -> ExitCode {
    let arguments: Vec<String> = env::args().skip(1).collect();
    let sales = |list: &[String]| {
        list.iter()
            .map(|sale| sale.parse().map(Transaction))
            .collect()
    };
    let parsed = arguments
        .split_first()
        .map(|(depot, list)| (depot, sales(list)));
    let Some((depot, Ok::<Vec<_>, std::num::ParseIntError>(sales))) = parsed else {
        eprintln!("usage: keep DEPOT SALE...");
        return ExitCode::from(2);
    };
    match run(Path::new(depot), &sales) {
        Ok(line) => {
            println!("{line}");
            ExitCode::SUCCESS
        }
        Err(error) => {
            eprintln!("keep: {error}");
            ExitCode::FAILURE
        }
    }
}
