//! The built program on random and damaged days: what it prints is the plain implementation's
//! report, with ragged, missing and long files among them, and its sum is what the tables differ by.

mod program;

use plain::days::{day, Random};
use plain::format::FILE_BYTES;
use plain::properties::reporting::{sum_in, Sums};
use plain::run::{is_whole, on_threads, scaled, Met, Seeds, Trying};
use program::{printed, run, NAMES};

/// The three files of a day; `None` for a missing one.
type Files = [Option<Vec<u8>>; 3];

/// How many days had a file missing, one that ends in part of an entry, one over 64,020 bytes.
#[derive(Default)]
struct Among {
    missing: u64,
    ragged: u64,
    long: u64,
}

/// The files of the day of this seed. Some are missing. Some grow over what is read: the journal
/// by bytes behind the last record, the list by its own names, the table by anything.
fn draw_files(seed: u64) -> Files {
    let day = day(seed);
    let random = &mut Random::new(!seed);
    let mut files = [day.journal, day.table_file, day.bad_file];
    if random.percent(15) {
        let which = random.pick(&[0, 0, 1, 2, 2]);
        let over = random.pick(&[0, 1, 2, 20, 5_000]);
        let pattern = match which {
            2 if files[2].len() >= 2 => files[2][..2].to_vec(),
            _ => random.bytes(20),
        };
        let grown = files[which].iter().chain(pattern.iter().cycle());
        files[which] = grown.copied().take(FILE_BYTES + over).collect();
        if which == 2 && over > 0 {
            // A name that is not read.
            files[2][FILE_BYTES..].fill(0);
        }
    }
    files.map(|file| Some(file).filter(|_| !random.percent(4)))
}

fn note_among(among: &mut Among, files: &Files) {
    let bytes = |i: usize| files[i].as_ref().map_or(0, Vec::len);
    among.missing += u64::from(files.iter().any(Option::is_none));
    among.ragged += u64::from(bytes(1) % 4 != 0 || bytes(2) % 2 != 0);
    among.long += u64::from((0..3).any(|i| bytes(i) > FILE_BYTES));
}

fn compared(seeds: Seeds) -> (Met, Among, Sums) {
    let (mut met, mut among) = (Met::default(), Among::default());
    let mut sums = Sums::default();
    for seed in seeds {
        let _trying = Trying("report", seed);
        let files = draw_files(seed);
        let [journal, table, bad] = &files;
        let bytes = |file: &Option<Vec<u8>>| file.clone().unwrap_or_default();
        let found = printed([journal.as_deref(), table.as_deref(), bad.as_deref()]);
        let [journal, table, bad] = [journal, table, bad].map(bytes);
        let expected = plain::report(&journal, &table, &bad);
        assert_eq!(
            String::from_utf8_lossy(&found),
            String::from_utf8_lossy(&expected)
        );
        sum_in(&journal, &table, &bad, &found)
            .into_iter()
            .for_each(|sum| sums.note(sum));
        met.note_report(&found);
        note_among(&mut among, &files);
    }
    (met, among, sums)
}

#[test]
fn the_program_prints_the_report() {
    let days = scaled(2_000);
    let (mut met, mut among) = (Met::default(), Among::default());
    let mut sums = Sums::default();
    for (part, of, summed) in on_threads(days, compared) {
        met.add(part);
        sums.add(summed);
        among.missing += of.missing;
        among.ragged += of.ragged;
        among.long += of.long;
    }
    let Among {
        missing,
        ragged,
        long,
    } = among;
    let line = met.line("report");
    let kinds =
        format!("{missing} with a missing file, {ragged} with a ragged, {long} with a long one");
    print!(
        "{days} days through the program: {kinds}\n{line}{}",
        sums.line()
    );
    assert!(!is_whole() || [missing, ragged, long].iter().all(|&met| met > 50));
    assert!(!is_whole() || sums.fewest() > 20, "{sums:?}");
}

/// A file that is there and cannot be read: no report, but a message.
#[test]
fn a_folder_in_place_of_a_file() {
    for name in NAMES {
        let ran = run(|folder| std::fs::create_dir(folder.join(name)).unwrap());
        assert!(ran.stdout.is_empty());
        assert!(!ran.stderr.is_empty());
    }
}
