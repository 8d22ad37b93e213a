//! The example day of document 01, to the byte.

use journal::status::{NOT_COMMITTED, SURVIVING, UNDONE};
use journal::{append, chain, check, kind, start, undo};
use journal::{Counts, Item, Lsn, Place, Reason, Refusal, Transaction, Undone, STATUS_BYTES};

const CLOSING: [i32; 3] = [320, 0, 1180];

/// The copy after take-back of sale 1: the head, then sale 3's read, write and commit.
#[rustfmt::skip]
const COPY: [u8; 80] = [
    0, 0, 0, 0, 3, 0, 0, 0, 3, 0, 0, 0, 0, 0, 0, 0, 0, 0, 0, 0,
    1, 0, 3, 0, 2, 0, 0, 0, 2, 0, 0, 0, 0, 0, 0, 0, 0, 0, 0, 0,
    2, 0, 3, 0, 3, 0, 0, 0, 2, 0, 0, 0, 0xE8, 0x03, 0, 0, 0x9C, 0x04, 0, 0,
    3, 0, 3, 0, 0, 0, 0, 0, 0, 0, 0, 0, 0, 0, 0, 0, 0, 0, 0, 0,
];

/// Append with plain numbers.
fn post(
    journal: &mut [u8],
    table: &mut [i32],
    counts: &mut Counts,
    kind: u8,
    sale: u16,
    item: u32,
    after: i32,
) -> Result<(), Refusal> {
    let (sale, item) = (Transaction(sale), Item(item));
    append(journal, table, counts, kind, sale, item, after)
}

/// Kept, taken back, dropped and the copy's bytes.
fn totals(undone: Undone) -> [usize; 4] {
    let [kept, back, dropped] = [undone.surviving, undone.undone, undone.aborted];
    [kept as usize, back as usize, dropped as usize, undone.bytes]
}

/// The journal, built from the opening table by start and append.
fn example() -> Vec<u8> {
    let day = [
        (kind::READ, 1, 0, 0),
        (kind::WRITE, 1, 0, 320),
        (kind::READ, 1, 1, 0),
        (kind::WRITE, 1, 1, 1),
        (kind::COMMIT, 1, 0, 0),
        (kind::READ, 2, 1, 0),
        (kind::READ, 3, 2, 0),
        (kind::WRITE, 2, 1, 0),
        (kind::WRITE, 3, 2, 1180),
        (kind::COMMIT, 2, 0, 0),
        (kind::COMMIT, 3, 0, 0),
    ];
    let mut journal = vec![0; 240];
    let mut table = [500, 0, 1000];
    let mut counts = Counts::default();
    start(&mut journal, 3).unwrap();
    for (kind, sale, item, after) in day {
        post(
            &mut journal,
            &mut table,
            &mut counts,
            kind,
            sale,
            item,
            after,
        )
        .unwrap();
    }
    assert_eq!(table, CLOSING);
    let expected = Counts {
        reads: 4,
        writes: 4,
        commits: 3,
        aborts: 0,
    };
    assert_eq!(counts, expected);
    journal
}

/// Undo of a list on the example day: answer, table, status and paper.
fn undone(
    bad: &[u16],
    paper: usize,
) -> (
    Result<Undone, Refusal>,
    [i32; 3],
    [u8; STATUS_BYTES],
    Vec<u8>,
) {
    let (mut table, mut status, mut out) = (CLOSING, [9; STATUS_BYTES], vec![9; paper]);
    let bad = Transaction::list(bad);
    let answer = undo(&example(), &mut table, bad, &mut status, &mut out);
    (answer, table, status, out)
}

#[test]
fn record_2_is_as_printed() {
    let record = [
        0x02, 0x00, 0x01, 0x00, 0x03, 0x00, 0x00, 0x00, 0x00, 0x00, 0x00, 0x00, 0xF4, 0x01, 0x00,
        0x00, 0x40, 0x01, 0x00, 0x00,
    ];
    assert_eq!(example()[40..60], record);
}

#[test]
fn the_day_passes() {
    assert_eq!(check(&example(), &CLOSING), Ok(0));
}

#[test]
fn the_slips() {
    let journal = example();
    for (sale, slip) in [
        (1, &[1, 2, 3, 4, 5][..]),
        (2, &[6, 8, 10]),
        (3, &[7, 9, 11]),
    ] {
        let mut lsns = [Lsn(77); 11];
        let visited = chain(&journal, Transaction(sale), &mut lsns);
        assert_eq!(visited, Ok(slip.len()));
        assert_eq!(lsns.map(|lsn| lsn.0)[..slip.len()], *slip);
        assert!(lsns[slip.len()..].iter().all(|lsn| *lsn == Lsn(77)));
    }
}

#[test]
fn list_1_takes_back_1_and_2() {
    for bad in [&[1][..], &[1, 1], &[2, 1]] {
        let (answer, table, status, out) = undone(bad, 240);
        assert_eq!(answer.map(totals), Ok([1, 2, 0, 80]));
        assert_eq!(table, [500, 0, 1180]);
        assert_eq!(status[..4], [NOT_COMMITTED, UNDONE, UNDONE, SURVIVING]);
        assert!(status[4..].iter().all(|mark| *mark == NOT_COMMITTED));
        assert_eq!(out[..80], COPY);
        assert!(out[80..].iter().all(|byte| *byte == 9));
        assert_eq!(check(&out[..80], &table), Ok(0));
    }
}

#[test]
fn list_3_returns_item_2() {
    let (answer, table, status, _) = undone(&[3], 240);
    assert_eq!(answer.unwrap().bytes, 180);
    assert_eq!(table, [320, 0, 1000]);
    assert_eq!(status[..4], [NOT_COMMITTED, SURVIVING, SURVIVING, UNDONE]);
}

#[test]
fn an_empty_list_copies_the_day() {
    let (answer, table, _, out) = undone(&[], 240);
    assert_eq!(answer.unwrap().bytes, 240);
    assert_eq!(table, CLOSING);
    assert_eq!(out, example());
}

#[test]
fn a_refusal_writes_nothing() {
    for (bad, paper, number, reason) in [
        (&[4][..], 240, 12, Reason::Unknown),
        (&[1][..], 79, 14, Reason::Capacity),
    ] {
        let (answer, table, status, out) = undone(bad, paper);
        assert_eq!(answer, Err(Refusal::new(number, 0)));
        assert_eq!(answer.unwrap_err().reason(), Some(reason));
        assert_eq!(table, CLOSING);
        assert!(status.iter().all(|mark| *mark == 9));
        assert!(out.iter().all(|byte| *byte == 9));
    }
    assert!(undone(&[1], 80).0.is_ok());
}

/// Sale 4 takes 100 pence from item 0, on from what the take-back of sale 1 left.
#[test]
fn posting_goes_on_after_a_take_back() {
    let (answer, mut table, _, mut out) = undone(&[1], 240);
    let mut counts = Counts::of(&out).unwrap();
    let left = Counts {
        reads: 1,
        writes: 1,
        commits: 1,
        aborts: 0,
    };
    assert_eq!(counts, left);
    assert_eq!(Counts::of(&out[..answer.unwrap().bytes]), Ok(left));
    for (kind, after) in [(kind::READ, 0), (kind::WRITE, 400), (kind::COMMIT, 0)] {
        post(&mut out, &mut table, &mut counts, kind, 4, 0, after).unwrap();
    }
    assert_eq!(table, [400, 0, 1180]);
    assert_eq!(Counts::of(&out), Ok(counts));
    assert_eq!(check(&out, &table), Ok(0));
}

#[test]
fn only_head_and_length_are_asked_before_counting() {
    let mut journal = example();
    journal[41] = 1;
    journal[220] = 9;
    let expected = Counts {
        reads: 4,
        writes: 4,
        commits: 2,
        aborts: 0,
    };
    assert_eq!(Counts::of(&journal), Ok(expected));
    for (length, number) in [(0, 1), (19, 1), (239, 1)] {
        assert_eq!(Counts::of(&journal[..length]), Err(Refusal::new(number, 0)));
    }
    journal[0] = 1;
    assert_eq!(Counts::of(&journal[..239]), Err(Refusal::new(2, 0)));
}

#[test]
fn a_refused_append_keeps_the_counts() {
    let (mut journal, mut table) = ([0; 40], [500]);
    let mut counts = Counts::default();
    start(&mut journal, 1).unwrap();
    for kind in [0, 5, 255] {
        let answer = post(&mut journal, &mut table, &mut counts, kind, 1, 0, 0);
        assert_eq!(answer, Err(Refusal::new(4, 1)));
        assert_eq!(answer.unwrap_err().place, Place::Record(Lsn(1)));
    }
    assert_eq!(counts, Counts::default());
}

#[test]
fn each_count_is_in_its_place() {
    let day = [
        (kind::READ, 1, 0, 0),
        (kind::READ, 1, 0, 0),
        (kind::READ, 1, 0, 0),
        (kind::WRITE, 1, 0, 320),
        (kind::WRITE, 1, 0, 310),
        (kind::ABORT, 1, 0, 0),
    ];
    let (mut journal, mut table) = ([0; 140], [500]);
    let mut counts = Counts::default();
    start(&mut journal, 1).unwrap();
    for (kind, sale, item, after) in day {
        post(
            &mut journal,
            &mut table,
            &mut counts,
            kind,
            sale,
            item,
            after,
        )
        .unwrap();
    }
    let expected = Counts {
        reads: 3,
        writes: 2,
        commits: 0,
        aborts: 1,
    };
    assert_eq!((counts, table), (expected, [500]));

    let (mut status, mut out) = ([9; STATUS_BYTES], [9; 140]);
    let answer = undo(&journal, &mut table, &[], &mut status, &mut out);
    assert_eq!(answer.map(totals), Ok([0, 0, 1, 20]));
    assert_eq!(status[1], NOT_COMMITTED);
}
