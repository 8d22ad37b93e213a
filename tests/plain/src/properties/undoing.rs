//! Undo of finished days (01: take-back).

use super::history::{History, CHANGED};
use super::posting::{intact_day, rebuilt};
use crate::compare::{answers, repair, Implementation};
use crate::days::{undo_sequence, Random, UndoSequence};
use crate::removal;

/// On a finished day undo accepts exactly the lists of committed numbers with a status vector of
/// 1,025 bytes and an output buffer that holds the copy. The copy then passes with every
/// transaction finished, over the same opening table; nothing behind it is written.
pub fn which_lists_undo_accepts(calls: &impl Implementation, seed: u64) -> u64 {
    let Some(day) = intact_day(seed).filter(|day| day.known.active == 0) else {
        return 0;
    };
    let commits = History::of(&day.journal).commits();
    let accepts = day.bad.iter().all(|name| commits.contains(name))
        && day.status.len() == 1_025
        && day.out.len() >= day.known.repaired_bytes;
    let undo = answers(calls, &day).undo;
    assert_eq!(undo.answer.is_ok(), accepts);
    let Ok(answer) = undo.answer else {
        return 1;
    };
    let undone = (0..1_025u16).filter(|&t| undo.status[t as usize] == 2);
    assert!(undone.eq(day.known.undone.iter().copied()));
    assert_eq!(answer.bytes, day.known.repaired_bytes as u64);
    let bytes = day.known.repaired_bytes;
    assert_eq!(calls.check(&undo.out[..bytes], &undo.table), Ok(0));
    let initial = History::of(&undo.out).initial(&undo.table);
    assert_eq!(initial, day.known.initial);
    assert_eq!(undo.out[bytes..], day.out[bytes..]);
    1
}

/// The sets of committed transactions, each as a mask over their positions.
struct Sets {
    commits: Vec<u16>,
    /// For each transaction, those that it reads from.
    sources: Vec<u32>,
}

impl Sets {
    fn of(history: &History) -> Sets {
        let commits = history.commits();
        let position = |t: u16| commits.binary_search(&t).unwrap();
        let mut sources = vec![0; commits.len()];
        for (reader, writer) in history.dependencies(CHANGED) {
            sources[position(reader)] |= 1 << position(writer);
        }
        Sets { commits, sources }
    }

    fn all(&self) -> std::ops::Range<u32> {
        0..1 << self.commits.len()
    }

    fn mask(&self, names: &[u16]) -> u32 {
        let bit = |t: &u16| 1 << self.commits.binary_search(t).unwrap();
        names.iter().map(bit).fold(0, |mask, bit: u32| mask | bit)
    }

    fn names(&self, mask: u32) -> Vec<u16> {
        let inside = (0..self.commits.len()).filter(|&i| mask >> i & 1 == 1);
        inside.map(|i| self.commits[i]).collect()
    }

    /// The set contains every committed transaction that reads from a member.
    fn is_closed(&self, mask: u32) -> bool {
        let reads_from_member = |i: &usize| self.sources[*i] & mask != 0;
        let mut readers = (0..self.commits.len()).filter(reads_from_member);
        readers.all(|i| mask >> i & 1 == 1)
    }

    /// Removal of the set leaves each read of the remaining committed transactions fed by the
    /// same write, or by the opening amount, as before.
    fn leaves_reads_alone(&self, journal: &[u8], history: &History, mask: u32) -> bool {
        let set = self.names(mask);
        let remains = |&(read, _): &(u32, Option<u32>)| {
            let reader = history.records[read as usize].transaction;
            self.commits.contains(&reader) && !set.contains(&reader)
        };
        let before = removal(journal, &[]).into_iter().filter(remains);
        let after = removal(journal, &set).into_iter().filter(remains);
        before.eq(after)
    }

    /// All lists where there are few; else each single name, and some drawn.
    fn lists(&self, seed: u64) -> Vec<u32> {
        if self.commits.len() <= 5 {
            return self.all().collect();
        }
        let random = &mut Random::new(seed);
        let drawn = (0..10).map(|_| random.below(self.all().len()) as u32);
        let single = (0..self.commits.len()).map(|i| 1 << i);
        drawn.chain(single).collect()
    }
}

/// The fewest transactions, by trying all sets: each set of committed transactions that contains
/// the list, and whose removal leaves the reads of the remaining ones alone, contains all the
/// undone ones; and these are such a set. Up to six committed transactions removal itself is tried
/// on each set; up to ten its equivalent, that the set is closed under reads-from. A case is a list
/// held against all sets.
pub fn undone_set_is_the_least(calls: &impl Implementation, seed: u64) -> u64 {
    let UndoSequence { journal, table, .. } = undo_sequence(seed);
    let history = History::of(&journal);
    let sets = Sets::of(&history);
    if sets.commits.len() > 10 {
        return 0;
    }
    if sets.commits.len() <= 6 {
        // The two ways to say it agree.
        for set in sets.all() {
            let alone = sets.leaves_reads_alone(&journal, &history, set);
            assert_eq!(alone, sets.is_closed(set));
        }
    }
    let good: Vec<u32> = sets.all().filter(|&set| sets.is_closed(set)).collect();
    let lists = sets.lists(seed);
    for &list in &lists {
        let repair = repair(calls, &journal, &table, &sets.names(list));
        let undone = sets.mask(&repair.undone);
        assert!(good.contains(&undone));
        assert_eq!(list & !undone, 0);
        assert_eq!(repair.answer.undone, undone.count_ones());
        for &set in good.iter().filter(|&&set| list & !set == 0) {
            assert_eq!(undone & !set, 0);
            assert!(undone.count_ones() <= set.count_ones());
        }
    }
    lists.len() as u64
}

/// The delete-transaction model: copy and table left are those of a day on which only the kept
/// transactions took place. They are posted alone, over the opening table, and give both.
pub fn what_is_left_is_the_models(calls: &impl Implementation, seed: u64) -> u64 {
    let UndoSequence {
        journal,
        table,
        calls: lists,
    } = undo_sequence(seed);
    let history = History::of(&journal);
    let commits = history.commits();
    let mut tried = 0;
    for mut bad in lists.into_iter().map(|call| call.bad) {
        bad.retain(|name| commits.contains(name));
        let repair = repair(calls, &journal, &table, &bad);
        let mut committed = [&repair.undone[..], &repair.surviving].concat();
        committed.sort();
        assert_eq!(committed, commits);
        assert_eq!(repair.answer.surviving as usize, repair.surviving.len());
        assert_eq!(repair.answer.undone as usize, repair.undone.len());
        assert_eq!(repair.answer.aborted as usize, history.aborts());
        let expected = history.only(&repair.surviving);
        assert_eq!(repair.repaired, expected);
        assert_eq!(calls.check(&repair.repaired, &repair.table), Ok(0));
        let (built, left) = rebuilt(calls, &expected, history.initial(&table));
        assert_eq!(built, repair.repaired);
        assert_eq!(left, repair.table);
        tried += 1;
    }
    tried
}
