//! The fields of a journal's bytes as `journal.h` and the Rust binding read them: those of the plain
//! implementation, on the bytes of random and damaged days and on random bytes.

use journal::{Head, Lsn};
use plain::days::{day, Random};
use plain::format::{Record, RECORD_BYTES};
use plain::run::scaled;
use std::io::Write;
use std::path::{Path, PathBuf};
use std::process::{Command, Stdio};

/// What each reader is given at most, so that C reads it in one piece.
const BYTES: usize = 128_000;

/// Journals and random bytes, also such as end in part of a record.
fn drawn() -> Vec<Vec<u8>> {
    let mut all: Vec<Vec<u8>> = (0..scaled(100)).map(|seed| day(seed).journal).collect();
    let random = &mut Random::new(12);
    for length in (0..=2 * RECORD_BYTES).chain([BYTES - 1, BYTES]) {
        all.push(random.bytes(length));
    }
    // Each byte by itself, and the ends of the amounts.
    for at in 0..RECORD_BYTES {
        for byte in [1, 0x7F, 0x80, 0xFF] {
            let mut record = [0; RECORD_BYTES];
            record[at] = byte;
            all.push(record.to_vec());
        }
    }
    all
}

/// The plain implementation's records, the head first.
fn plainly(bytes: &[u8]) -> Vec<Record> {
    bytes
        .chunks_exact(RECORD_BYTES)
        .map(Record::decode)
        .collect()
}

fn line(record: &Record) -> String {
    let Record {
        kind,
        zero,
        transaction,
        next,
        item,
        before,
        after,
    } = record;
    format!("{kind} {zero} {transaction} {next} {item} {before} {after}\n")
}

#[test]
fn the_binding_reads_the_same_fields() {
    for bytes in drawn() {
        let expected = plainly(&bytes);
        let head = Head::of(&bytes).map(|head| (head.records, head.items));
        assert_eq!(head, expected.first().map(|head| (head.next, head.item)));
        for (lsn, record) in (0..).map(Lsn).zip(&expected) {
            let found = journal::Record::at(&bytes, lsn).unwrap();
            let found = Record {
                kind: found.kind,
                zero: found.byte_1,
                transaction: found.transaction.0,
                next: found.next.0,
                item: found.item.0,
                before: found.before,
                after: found.after,
            };
            assert_eq!(found, *record);
        }
        for behind in [expected.len() as u32, u32::MAX] {
            assert_eq!(journal::Record::at(&bytes, Lsn(behind)), None);
        }
        // Those that the head counts, as far as they are there.
        let counted = expected.first().map_or(0, |head| head.next as usize);
        let there = counted.min(expected.len().saturating_sub(1));
        assert_eq!(journal::records(&bytes).count(), there);
        let last = journal::records(&bytes).last();
        assert_eq!(last.map_or(0, |(lsn, _)| lsn.0 as usize), there);
    }
}

/// The program of bindings/c/fields.c; undefined behaviour ends it.
fn build_fields() -> PathBuf {
    let program = Path::new(env!("CARGO_TARGET_TMPDIR")).join("fields");
    let header = concat!(env!("CARGO_MANIFEST_DIR"), "/../../bindings/c");
    let mut cc = Command::new("cc");
    cc.args(["-std=c99", "-Wall", "-Wextra", "-Werror", "-pedantic"]);
    cc.args(["-fsanitize=undefined", "-fno-sanitize-recover=all"]);
    cc.arg(format!("{header}/fields.c")).arg("-o").arg(&program);
    assert!(cc.status().unwrap().success());
    program
}

#[test]
fn the_header_reads_the_same_fields() {
    let program = build_fields();
    for bytes in drawn() {
        let records = plainly(&bytes);
        let head = |head: &Record| format!("{} {}\n", head.next, head.item);
        let mut expected: String = records.first().map(head).unwrap_or_default();
        expected.extend(records.iter().map(line));
        let mut command = Command::new(&program);
        command.stdin(Stdio::piped()).stdout(Stdio::piped());
        let mut running = command.spawn().unwrap();
        running.stdin.take().unwrap().write_all(&bytes).unwrap();
        let output = running.wait_with_output().unwrap();
        assert!(output.status.success());
        assert!(output.stdout == expected.as_bytes(), "{bytes:?}");
    }
}
