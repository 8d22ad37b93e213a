//! Check, undo and append written by hand: a fixed number of passes over the records, with the
//! state so far in fixed arrays.

#![forbid(unsafe_code)]

use plain::format::{ABORT, COMMIT, READ, WRITE};
use plain::refusal::*;
use plain::Undone;

const SIZE: usize = 20;
const RECORDS: usize = 3_200;
const ITEMS: usize = 1_024;
/// Transaction numbers 0 to 1,024; no transaction has the number 0.
const NUMBERS: usize = 1_025;

/// A transaction's end so far: none, or the kind of its last record, COMMIT or ABORT.
const OPEN: u8 = 0;
/// The end of number 0, which stands for the writer of an item that no record has written.
const NOBODY: u8 = 1;

/// The record that a transaction is due to go on with: none, since it has not begun.
const UNSEEN: u16 = 0;
/// None, since its last record had no next.
const LAST: u16 = u16::MAX;

/// Status bytes (01: marks).
const NOT_COMMITTED: u8 = 0;
const SURVIVING: u8 = 1;
const UNDONE: u8 = 2;

#[derive(Clone, Copy)]
struct Record {
    kind: u8,
    zero: u8,
    transaction: u16,
    next: u32,
    item: u32,
    before: i32,
    after: i32,
}

fn u16_at(bytes: &[u8; SIZE], at: usize) -> u16 {
    u16::from_le_bytes([bytes[at], bytes[at + 1]])
}

fn u32_at(bytes: &[u8; SIZE], at: usize) -> u32 {
    u32::from_le_bytes([bytes[at], bytes[at + 1], bytes[at + 2], bytes[at + 3]])
}

impl Record {
    fn decode(bytes: &[u8; SIZE]) -> Record {
        Record {
            kind: bytes[0],
            zero: bytes[1],
            transaction: u16_at(bytes, 2),
            next: u32_at(bytes, 4),
            item: u32_at(bytes, 8),
            before: u32_at(bytes, 12) as i32,
            after: u32_at(bytes, 16) as i32,
        }
    }

    fn encode(&self) -> [u8; SIZE] {
        let mut bytes = [0; SIZE];
        bytes[0] = self.kind;
        bytes[1] = self.zero;
        bytes[2..4].copy_from_slice(&self.transaction.to_le_bytes());
        bytes[4..8].copy_from_slice(&self.next.to_le_bytes());
        bytes[8..12].copy_from_slice(&self.item.to_le_bytes());
        bytes[12..16].copy_from_slice(&self.before.to_le_bytes());
        bytes[16..20].copy_from_slice(&self.after.to_le_bytes());
        bytes
    }

    /// The layout of a record, next left out.
    fn fits(&self, items: usize) -> bool {
        let by_kind = match self.kind {
            READ => (self.item as usize) < items && self.before == 0 && self.after == 0,
            WRITE => (self.item as usize) < items,
            COMMIT | ABORT => self.item == 0 && self.before == 0 && self.after == 0,
            _ => false,
        };
        by_kind && self.zero == 0 && (1..NUMBERS).contains(&(self.transaction as usize))
    }
}

/// The 20-byte parts of these bytes.
fn split(bytes: &[u8]) -> impl DoubleEndedIterator<Item = &[u8; SIZE]> + ExactSizeIterator {
    bytes
        .chunks_exact(SIZE)
        .map(|part| part.try_into().unwrap())
}

fn refuse<T>(number: u32, place: usize) -> Result<T, Refusal> {
    Err(Refusal {
        number,
        place: place as u64,
    })
}

/// Refusals 1 (under 20 bytes), 2, 1 (whole length); else the records behind the head and the
/// item count.
fn open(journal: &[u8]) -> Result<(&[u8], usize), Refusal> {
    let Some(head) = journal.first_chunk::<SIZE>() else {
        return refuse(TRUNCATED, 0);
    };
    let head = Record::decode(head);
    let (count, items) = (head.next as usize, head.item as usize);
    let zeros = Record {
        next: 0,
        item: 0,
        ..head
    };
    if zeros.encode() != [0; SIZE] || count > RECORDS || !(1..=ITEMS).contains(&items) {
        return refuse(BAD_HEADER, 0);
    }
    match journal.get(SIZE..SIZE * (count + 1)) {
        Some(records) => Ok((records, items)),
        None => refuse(TRUNCATED, 0),
    }
}

/// What is known of an item.
#[derive(Clone, Copy, Default)]
struct Item {
    /// The transaction of its last write, 0 for none.
    writer: u16,
    /// The newest read since, 0 for none.
    read: u16,
    /// The before image of that transaction's first write of it.
    before: i32,
    /// The after image of the last write.
    after: i32,
}

/// A read, with the one before it of the same item, 0 for none.
#[derive(Clone, Copy, Default)]
struct Read {
    transaction: u16,
    previous: u16,
}

/// What is known after the records so far.
struct State {
    items: [Item; ITEMS],
    /// By record number; append tries one record more than fit.
    reads: [Read; RECORDS + 2],
    /// By transaction number.
    ends: [u8; NUMBERS],
    due: [u16; NUMBERS],
    /// How many transactions have a record.
    begun: u32,
    /// Reads, writes, commits and aborts.
    counts: [u32; 4],
}

impl State {
    fn new() -> State {
        let mut ends = [OPEN; NUMBERS];
        ends[0] = NOBODY;
        State {
            items: [Item::default(); ITEMS],
            reads: [Read::default(); RECORDS + 2],
            ends,
            due: [UNSEEN; NUMBERS],
            begun: 0,
            counts: [0; 4],
        }
    }

    fn end(&self, transaction: u16) -> u8 {
        self.ends[transaction as usize]
    }

    /// How many transactions have a record and no end.
    fn active(&self) -> u32 {
        self.begun - self.counts[2] - self.counts[3]
    }

    /// The current value of a written item (01: standing amount).
    fn value(&self, item: &Item) -> i32 {
        if self.end(item.writer) == ABORT {
            item.before
        } else {
            item.after
        }
    }

    /// Another transaction that is active has written the item.
    fn crossed(&self, item: &Item, transaction: u16) -> bool {
        item.writer != transaction && self.end(item.writer) == OPEN
    }

    /// Record i, which fits the layout: refusals 6 to 9, or what it changes.
    #[inline(always)]
    fn take(&mut self, i: usize, r: &Record) -> Result<(), u32> {
        if self.end(r.transaction) != OPEN {
            return Err(AFTER_TERMINATION);
        }
        match r.kind {
            READ => self.read(i, r),
            WRITE => self.write(r),
            end => {
                self.ends[r.transaction as usize] = end;
                Ok(())
            }
        }
    }

    #[inline(always)]
    fn read(&mut self, i: usize, r: &Record) -> Result<(), u32> {
        let item = self.items[r.item as usize];
        if self.crossed(&item, r.transaction) {
            return Err(CONFLICT);
        }
        self.reads[i] = Read {
            transaction: r.transaction,
            previous: item.read,
        };
        self.items[r.item as usize].read = i as u16;
        Ok(())
    }

    #[inline(always)]
    fn write(&mut self, r: &Record) -> Result<(), u32> {
        let item = self.items[r.item as usize];
        if self.crossed(&item, r.transaction) {
            return Err(CONFLICT);
        }
        let again = item.writer == r.transaction;
        let mut has_read = again;
        let mut lsn = item.read;
        while lsn != 0 {
            let read = self.reads[lsn as usize];
            if read.transaction == r.transaction {
                has_read = true;
            } else if self.end(read.transaction) == OPEN {
                return Err(CONFLICT);
            }
            lsn = read.previous;
        }
        if !has_read {
            return Err(BLIND_WRITE);
        }
        if item.writer != 0 && self.value(&item) != r.before {
            return Err(BEFORE_IMAGE);
        }
        self.items[r.item as usize] = Item {
            writer: r.transaction,
            read: 0,
            before: if again { item.before } else { r.before },
            after: r.after,
        };
        Ok(())
    }

    /// Refusals 4 to 9.
    #[inline(never)]
    fn records(&mut self, records: &[u8], items: usize) -> Result<(), Refusal> {
        let count = records.len() / SIZE;
        let (mut begun, mut linked, mut counts) = (0, 0, [0; 5]);
        for (bytes, i) in split(records).zip(1..) {
            let r = Record::decode(bytes);
            if !r.fits(items) {
                return first_refusal(records, i, MALFORMED);
            }
            let due = &mut self.due[r.transaction as usize];
            if *due != UNSEEN && *due as usize != i {
                return first_refusal(records, i, BROKEN_CHAIN);
            }
            begun += u32::from(*due == UNSEEN);
            if r.next == 0 {
                *due = LAST;
            } else if (i + 1..=count).contains(&(r.next as usize)) {
                *due = r.next as u16;
                linked += 1;
            } else {
                return first_refusal(records, i, BROKEN_CHAIN);
            }
            if let Err(number) = self.take(i, &r) {
                return first_refusal(records, i, number);
            }
            counts[r.kind as usize] += 1;
        }
        // Each record but the first of its transaction is the next of one.
        if linked + begun != count as u32 {
            return first_refusal(records, count + 1, BROKEN_CHAIN);
        }
        self.begun = begun;
        self.counts.copy_from_slice(&counts[1..]);
        Ok(())
    }

    /// Refusals 1 to 10; else the records behind the head and the item count.
    fn validate<'a>(
        &mut self,
        journal: &'a [u8],
        table: &[i32],
    ) -> Result<(&'a [u8], usize), Refusal> {
        let (records, items) = open(journal)?;
        if table.len() != items {
            return refuse(TABLE_LENGTH, 0);
        }
        self.records(records, items)?;
        let unsettled =
            |(item, &amount): (&Item, &i32)| item.writer != 0 && self.value(item) != amount;
        match self.items.iter().zip(table).position(unsettled) {
            Some(item) => refuse(FINAL_STATE, item),
            None => Ok((records, items)),
        }
    }
}

/// The refusal, where `number` at record i is the first that was found: a wrong next shows only
/// later, so a lower one may stand before it.
#[cold]
fn first_refusal(records: &[u8], i: usize, number: u32) -> Result<(), Refusal> {
    let mut first = (i, number);
    let mut later = [0; NUMBERS];
    for (behind, bytes) in split(records).enumerate().rev() {
        let i = behind + 1;
        if let Some(later) = later.get_mut(u16_at(bytes, 2) as usize) {
            if u32_at(bytes, 4) != *later {
                first = first.min((i, BROKEN_CHAIN));
            }
            *later = i as u32;
        }
    }
    refuse(first.1, first.0)
}

/// How many transactions are active.
pub fn check(journal: &[u8], table: &[i32]) -> Result<u32, Refusal> {
    let mut state = State::new();
    state.validate(journal, table)?;
    Ok(state.active())
}

/// Undoes the bad list and all that read from it.
pub fn undo(
    journal: &[u8],
    table: &mut [i32],
    bad: &[u16],
    status: &mut [u8],
    out: &mut [u8],
) -> Result<Undone, Refusal> {
    let mut state = State::new();
    let (records, _) = state.validate(journal, table)?;
    if state.active() != 0 {
        let is_active = |&t: &usize| state.due[t] != UNSEEN && state.ends[t] == OPEN;
        return refuse(ACTIVE_AT_END, (1..NUMBERS).find(is_active).unwrap());
    }
    let Ok(status) = <&mut [u8; NUMBERS]>::try_from(status) else {
        return refuse(STATUS_LENGTH, 0);
    };
    let unknown = |&t: &u16| state.ends.get(t as usize) != Some(&COMMIT);
    if let Some(position) = bad.iter().position(unknown) {
        return refuse(UNKNOWN, position);
    }
    let fates = fates(records, &state.ends, bad);
    let (ranks, kept) = ranks(records, &fates);
    let bytes = SIZE * (kept + 1);
    let Some(out) = out.get_mut(..bytes) else {
        return refuse(OUTPUT_LENGTH, 0);
    };
    out[..SIZE].copy_from_slice(&journal[..SIZE]);
    out[4..8].copy_from_slice(&(kept as u32).to_le_bytes());
    repair(records, &fates, &ranks, table, &mut out[SIZE..]);
    *status = fates;
    let number = |fate| fates.iter().filter(|&&f| f == fate).count() as u32;
    Ok(Undone {
        surviving: number(SURVIVING),
        undone: number(UNDONE),
        aborted: state.counts[ABORT as usize - 1],
        bytes: bytes as u64,
    })
}

/// The status of each transaction number. A read is fed by the last write of its item that changed
/// the amount and whose transaction commits: other writers' open writes are refused before.
fn fates(records: &[u8], ends: &[u8; NUMBERS], bad: &[u16]) -> [u8; NUMBERS] {
    let mut undone = [false; NUMBERS];
    for &transaction in bad {
        undone[transaction as usize] = true;
    }
    let mut feeders = [0u16; ITEMS];
    for bytes in split(records) {
        let transaction = u16_at(bytes, 2);
        let item = u32_at(bytes, 8) as usize;
        match bytes[0] {
            READ => undone[transaction as usize] |= undone[feeders[item] as usize],
            WRITE if ends[transaction as usize] == COMMIT && changes(bytes) => {
                feeders[item] = transaction
            }
            _ => {}
        }
    }
    let mut fates = [NOT_COMMITTED; NUMBERS];
    for ((fate, &end), &undone) in fates.iter_mut().zip(ends).zip(&undone) {
        if end == COMMIT {
            *fate = if undone { UNDONE } else { SURVIVING };
        }
    }
    fates
}

/// The write's after is not its before.
fn changes(bytes: &[u8; SIZE]) -> bool {
    u32_at(bytes, 12) != u32_at(bytes, 16)
}

/// How many of the first i records survive, for each i, and how many of all.
fn ranks(records: &[u8], fates: &[u8; NUMBERS]) -> ([u16; RECORDS + 1], usize) {
    let mut ranks = [0; RECORDS + 1];
    let mut kept = 0;
    for (bytes, rank) in split(records).zip(&mut ranks[1..]) {
        kept += u16::from(fates[u16_at(bytes, 2) as usize] == SURVIVING);
        *rank = kept;
    }
    (ranks, kept as usize)
}

/// The table left, and the surviving records.
fn repair(
    records: &[u8],
    fates: &[u8; NUMBERS],
    ranks: &[u16; RECORDS + 1],
    table: &mut [i32],
    out: &mut [u8],
) {
    let mut written = [false; ITEMS];
    let mut places = out.chunks_exact_mut(SIZE);
    for bytes in split(records) {
        let r = Record::decode(bytes);
        let survives = fates[r.transaction as usize] == SURVIVING;
        if r.kind == WRITE {
            let item = r.item as usize;
            if survives {
                table[item] = r.after;
            } else if !written[item] {
                table[item] = r.before;
            }
            written[item] = true;
        }
        if survives {
            let place = places.next().unwrap();
            place.copy_from_slice(bytes);
            let next = u32::from(ranks[r.next as usize]);
            place[4..8].copy_from_slice(&next.to_le_bytes());
        }
    }
}

/// Adds one record.
pub fn append(
    journal: &mut [u8],
    table: &mut [i32],
    counts: &mut [u32; 4],
    kind: u8,
    transaction: u16,
    item: u32,
    after: i32,
) -> Result<(), Refusal> {
    let mut state = State::new();
    let (records, items) = state.validate(journal, table)?;
    if *counts != state.counts {
        return refuse(COUNTS, 0);
    }
    let lsn = records.len() / SIZE + 1;
    let new = Record {
        kind,
        zero: 0,
        transaction,
        next: 0,
        item,
        before: match table.get(item as usize) {
            Some(&amount) if kind == WRITE => amount,
            _ => 0,
        },
        after,
    };
    if !new.fits(items) {
        return refuse(MALFORMED, lsn);
    }
    if let Err(number) = state.take(lsn, &new) {
        return refuse(number, lsn);
    }
    if lsn > RECORDS || journal.len() < SIZE * (lsn + 1) {
        return refuse(OUTPUT_LENGTH, 0);
    }
    let earlier = match state.due[transaction as usize] {
        UNSEEN => None,
        _ => split(records).rposition(|bytes| u16_at(bytes, 2) == transaction),
    };
    if let Some(behind) = earlier {
        let next = SIZE * (behind + 1) + 4;
        journal[next..next + 4].copy_from_slice(&(lsn as u32).to_le_bytes());
    }
    journal[SIZE * lsn..SIZE * (lsn + 1)].copy_from_slice(&new.encode());
    journal[4..8].copy_from_slice(&(lsn as u32).to_le_bytes());
    match kind {
        WRITE => table[item as usize] = after,
        ABORT => {
            for (item, amount) in state.items.iter().zip(table) {
                if item.writer == transaction {
                    *amount = item.before;
                }
            }
        }
        _ => {}
    }
    counts[kind as usize - 1] += 1;
    Ok(())
}
