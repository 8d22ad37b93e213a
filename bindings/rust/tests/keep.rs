//! The example `keep`, in Rust and in C: what it leaves in a depot's folder, in which order it writes, and
//! that a kill at any step leaves the old or the new day.

use journal::{append, check, kind, start, undo, Counts, Item, Transaction, STATUS_BYTES};
use std::collections::BTreeMap;
use std::ffi::OsStr;
use std::fs;
use std::os::unix::process::ExitStatusExt;
use std::path::{Path, PathBuf};
use std::process::{Command, Output};
use std::sync::OnceLock;

/// Every file below a folder, with its bytes.
type Files = BTreeMap<PathBuf, Vec<u8>>;

fn files(folder: &Path) -> Files {
    let mut found = Files::new();
    for entry in fs::read_dir(folder).unwrap() {
        let path = entry.unwrap().path();
        if path.is_dir() {
            found.extend(files(&path));
        } else {
            found.insert(path.clone(), fs::read(path).unwrap());
        }
    }
    found
}

fn bytes(table: &[i32]) -> Vec<u8> {
    table
        .iter()
        .flat_map(|amount| amount.to_le_bytes())
        .collect()
}

/// The journal and table of document 01's example day.
fn example() -> (Vec<u8>, [i32; 3]) {
    let (mut journal, mut table) = (vec![0; 240], [500, 0, 1000]);
    let mut counts = Counts::default();
    start(&mut journal, 3).unwrap();
    for (kind, sale, item, after) in [
        (kind::READ, 1, 0, 0),
        (kind::WRITE, 1, 0, 320),
        (kind::READ, 1, 1, 0),
        (kind::WRITE, 1, 1, 1),
        (kind::COMMIT, 1, 0, 0),
        (kind::READ, 2, 1, 0),
        (kind::READ, 3, 2, 0),
        (kind::WRITE, 2, 1, 0),
        (kind::WRITE, 3, 2, 1180),
        (kind::COMMIT, 2, 0, 0),
        (kind::COMMIT, 3, 0, 0),
    ] {
        let (sale, item) = (Transaction(sale), Item(item));
        append(
            &mut journal,
            &mut table,
            &mut counts,
            kind,
            sale,
            item,
            after,
        )
        .unwrap();
    }
    (journal, table)
}

/// A depot's folder with the example day as day-1.
fn depot(name: &str) -> PathBuf {
    let depot = Path::new(env!("CARGO_TARGET_TMPDIR")).join(name);
    let _ = fs::remove_dir_all(&depot);
    let (journal, table) = example();
    fs::create_dir_all(depot.join("day-1")).unwrap();
    fs::write(depot.join("day-1/journal.bin"), journal).unwrap();
    fs::write(depot.join("day-1/table.bin"), bytes(&table)).unwrap();
    depot
}

/// The example in one of its two languages.
struct Program {
    language: &'static str,
    path: PathBuf,
}

impl Program {
    fn keep(&self, depot: &Path, sales: &[&str]) -> Command {
        let mut command = Command::new(&self.path);
        command.arg(depot).args(sales);
        command
    }

    /// A depot of its own.
    fn depot(&self, name: &str) -> PathBuf {
        depot(&format!("{name}-{}", self.language))
    }
}

/// Both of them; the one in C is built once.
fn programs() -> &'static [Program; 2] {
    static BUILT: OnceLock<[Program; 2]> = OnceLock::new();
    BUILT.get_or_init(|| {
        let tests = std::env::current_exe().unwrap();
        let in_rust = tests.ancestors().nth(2).unwrap().join("examples/keep");
        let source = concat!(env!("CARGO_MANIFEST_DIR"), "/../c/keep.c");
        let archive = concat!(env!("OUT_DIR"), "/libjournal_capi.a");
        [
            Program {
                language: "rust",
                path: in_rust,
            },
            Program {
                language: "c",
                path: compiled(&["-std=c99", "-pedantic", source, archive], "keep"),
            },
        ]
    })
}

/// The library that stops a program at a step, built from stop.c once.
fn stopper() -> &'static Path {
    static BUILT: OnceLock<PathBuf> = OnceLock::new();
    BUILT.get_or_init(|| {
        let source = concat!(env!("CARGO_MANIFEST_DIR"), "/tests/stop.c");
        compiled(&["-shared", "-fPIC", source, "-ldl"], "libstop.so")
    })
}

/// What the C compiler makes of this.
fn compiled(words: &[&str], name: &str) -> PathBuf {
    let output = Path::new(env!("CARGO_TARGET_TMPDIR")).join(name);
    let mut cc = Command::new("cc");
    cc.args(["-Wall", "-Wextra", "-Werror"]).args(words);
    let built = cc.arg("-o").arg(&output).status();
    assert!(built.unwrap().success());
    output
}

fn line(output: Output) -> String {
    assert!(output.status.success(), "{output:?}");
    String::from_utf8(output.stdout).unwrap()
}

#[test]
fn two_take_backs_are_kept() {
    // By one program twice, and by each of them once.
    let [rust, c] = programs();
    for (first, second) in [(rust, rust), (c, c), (rust, c), (c, rust)] {
        let name = format!("kept-{}-{}", first.language, second.language);
        two_take_backs(&depot(&name), first, second);
    }
}

fn two_take_backs(depot: &Path, first: &Program, second: &Program) {
    let old = files(depot);
    let said = line(first.keep(depot, &["1"]).output().unwrap());
    assert_eq!(said, "day-2: 2 taken back, 1 kept\n");
    // Sale 1 is struck from the second list.
    let said = line(second.keep(depot, &["1", "3"]).output().unwrap());
    assert_eq!(said, "day-3: 1 taken back, 0 kept\n");

    let new = files(depot);
    assert!(old.iter().all(|(path, bytes)| new[path] == *bytes));
    let file = |name: &str| new[&depot.join(name)].clone();
    assert_eq!(file("day-2/table.bin"), bytes(&[500, 0, 1180]));
    assert_eq!(file("day-2/taken.bin"), [1, 0, 2, 0]);
    assert_eq!(file("day-2/journal.bin").len(), 80);
    assert_eq!(check(&file("day-2/journal.bin"), &[500, 0, 1180]), Ok(0));
    assert_eq!(file("day-3/taken.bin"), [1, 0, 2, 0, 3, 0]);
    assert_eq!(new.len(), 2 + 3 + 3);

    // Day 3 is what one take-back with the joined list leaves.
    let (journal, mut table) = example();
    let (mut marks, mut out) = ([0; STATUS_BYTES], [0; 240]);
    let joined = Transaction::list(&[1, 3]);
    let totals = undo(&journal, &mut table, joined, &mut marks, &mut out).unwrap();
    assert_eq!(file("day-3/journal.bin"), out[..totals.bytes]);
    assert_eq!(file("day-3/table.bin"), bytes(&table));
}

#[test]
fn a_refused_take_back_keeps_nothing() {
    for program in programs() {
        let depot = program.depot("refused");
        let old = files(&depot);
        let said = |sales: &[&str], status: i32| {
            let output = program.keep(&depot, sales).output().unwrap();
            assert_eq!(output.status.code(), Some(status));
            String::from_utf8(output.stderr).unwrap()
        };
        assert_eq!(said(&["4"], 1), "keep: unknown, position 0\n");
        assert_eq!(said(&["1", "0"], 1), "keep: unknown, position 1\n");
        for word in ["one", "", "65536", "1x", "-1"] {
            assert_eq!(said(&[word], 2), "usage: keep DEPOT SALE...\n");
        }
        assert_eq!(files(&depot), old);
        assert_eq!(fs::read_dir(&depot).unwrap().count(), 1);
    }
}

#[test]
fn only_whole_names_are_days() {
    for program in programs() {
        let depot = program.depot("names");
        for name in ["day-", "day-07", "day-9x", "day--9", "part-9", "xday-9"] {
            fs::create_dir(depot.join(name)).unwrap();
        }
        let said = line(program.keep(&depot, &["1"]).output().unwrap());
        assert_eq!(said, "day-2: 2 taken back, 1 kept\n");
        let empty = program.depot("empty");
        fs::remove_dir_all(empty.join("day-1")).unwrap();
        let output = program.keep(&empty, &[]).output().unwrap();
        assert_eq!(output.status.code(), Some(1));
        let said = String::from_utf8(output.stderr).unwrap();
        assert_eq!(said, format!("keep: {}: no day-1\n", empty.display()));
    }
}

#[test]
fn files_and_folder_are_flushed_before_the_rename() {
    for program in programs() {
        let depot = program.depot("order");
        let log = depot.with_extension("log");
        let _ = fs::remove_file(&log);
        let mut command = program.keep(&depot, &["1"]);
        command.env("LD_PRELOAD", stopper()).env("STOP_LOG", &log);
        line(command.output().unwrap());
        let mut expected = "mkdir part\n".to_string();
        for file in ["journal.bin", "table.bin", "taken.bin"] {
            expected += &format!("create {file}\nwrite {file}\nfsync {file}\n");
        }
        expected += "fsync part\nrename part day-2\n";
        expected += &format!("fsync order-{}\n", program.language);
        assert_eq!(fs::read_to_string(log).unwrap(), expected);
    }
}

/// The highest day after a kill.
fn highest(depot: &Path) -> u32 {
    let number = |path: PathBuf| {
        let name = path.file_name().unwrap().to_str().unwrap().to_string();
        name.strip_prefix("day-")
            .map(|digits| digits.parse().unwrap())
    };
    let days = fs::read_dir(depot).unwrap();
    let days = days.filter_map(|entry| number(entry.unwrap().path()));
    days.max().unwrap()
}

/// Whether a path has a folder part-N in it.
fn in_part(path: &Path) -> bool {
    let part = |name: &OsStr| name.to_str().unwrap().starts_with("part-");
    path.iter().any(part)
}

/// How many folders part-N a depot has.
fn parts(depot: &Path) -> usize {
    let entries = fs::read_dir(depot).unwrap();
    let names = entries.map(|entry| entry.unwrap().file_name());
    names.filter(|name| in_part(Path::new(name))).count()
}

fn day(depot: &Path, number: u32) -> PathBuf {
    depot.join(format!("day-{number}"))
}

#[test]
fn a_kill_at_each_step_leaves_the_old_or_the_new_day() {
    for program in programs() {
        // mkdir, three files of three steps each, the folder, the rename; then the depot's folder.
        assert_eq!(killed(program, "first", None, &[], &["1"]), (12, 1));
        // A second call, with a name struck.
        let second = killed(program, "second", None, &["1"], &["1", "3"]);
        assert_eq!(second, (12, 1));
        // What another stop left is removed first: its rename, its three files, its folder.
        let left = killed(program, "left", Some("part-7"), &[], &["1"]);
        assert_eq!(left, (17, 1));
    }
}

/// A folder that a stop left, and the lists of two calls: one that is kept, if it is not empty, and one that
/// is killed at each step. How many kills leave the old day, and how many the new one.
fn killed(
    program: &Program,
    name: &str,
    left: Option<&str>,
    kept: &[&str],
    killed: &[&str],
) -> (u32, u32) {
    let start = |name: &str| {
        let depot = program.depot(name);
        if !kept.is_empty() {
            line(program.keep(&depot, kept).output().unwrap());
        }
        if let Some(part) = left {
            fs::create_dir(depot.join(part)).unwrap();
            for file in ["journal.bin", "table.bin", "taken.bin"] {
                fs::write(depot.join(part).join(file), "torn").unwrap();
            }
        }
        depot
    };
    let whole = start(&format!("whole-{name}"));
    let old_day = highest(&whole);
    line(program.keep(&whole, killed).output().unwrap());
    let (mut old_days, mut new_days) = (0, 0);
    for step in 1.. {
        let depot = start(&format!("killed-{name}"));
        let old = files(&depot);
        let mut command = program.keep(&depot, killed);
        command.env("LD_PRELOAD", stopper());
        command.env("STOP_AT", step.to_string());
        let output = command.output().unwrap();
        if output.status.success() {
            break;
        }
        assert_eq!(output.status.signal(), Some(9), "step {step}: {output:?}");

        // The old days are as they were; the highest day is the old one, or the new one as it is without a
        // kill.
        let after = files(&depot);
        let mut days = old.iter().filter(|(path, _)| !in_part(path));
        assert!(days.all(|(path, bytes)| after[path] == *bytes));
        let reached = highest(&depot);
        if reached == old_day {
            old_days += 1;
        } else {
            assert_eq!(reached, old_day + 1);
            for (path, bytes) in files(&day(&whole, reached)) {
                let file = day(&depot, reached).join(path.file_name().unwrap());
                assert_eq!(fs::read(file).unwrap(), bytes);
            }
            new_days += 1;
        }
        // The program goes on from either, and what is left of the kill does not count.
        let said = line(program.keep(&depot, killed).output().unwrap());
        let next = format!("day-{}: ", reached + 1);
        assert!(said.starts_with(&next), "step {step}: {said}");
        let table = |depot: &Path, number: u32| fs::read(day(depot, number).join("table.bin"));
        assert_eq!(
            table(&depot, reached + 1).unwrap(),
            table(&whole, old_day + 1).unwrap()
        );
        assert_eq!(parts(&depot), 0);
    }
    assert_eq!(parts(&whole), 0);
    (old_days, new_days)
}
