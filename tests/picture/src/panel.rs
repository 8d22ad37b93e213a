//! Where each record and each sale of a picture stands.

use crate::day::{Accesses, Day, Fate, Sale};
use journal::{Lsn, Place};
use std::collections::HashMap;

/// How much is written at each record.
#[derive(Clone, Copy, PartialEq, Eq)]
pub enum Detail {
    /// Item and amounts.
    Full,
    /// The item.
    Items,
    /// Nothing; it is told where the pointer rests.
    None,
}

/// Records and sales, each with its place.
pub struct Panel {
    pub detail: Detail,
    pub columns: HashMap<u32, f64>,
    /// By the sale's index.
    pub rows: HashMap<usize, f64>,
    /// The width of a column, the height of a row, half the width of a record's sign.
    pub column: f64,
    pub row: f64,
    pub sign: f64,
    /// Whether there is room for the numbers of sales.
    pub named: bool,
    pub top: f64,
    pub bottom: f64,
    pub right: f64,
}

impl Panel {
    /// A day of so many records and sales has room for all words.
    pub fn is_small(records: usize, sales: usize) -> bool {
        records <= 48 && sales <= 24
    }

    /// These records, a column each; their sales, a row each.
    pub fn rows(day: &Day, records: &[Lsn], top: f64) -> Panel {
        let mut sales: Vec<usize> = records.iter().map(|lsn| day.row(*lsn)).collect();
        sales.sort();
        sales.dedup();
        let (detail, column, row, sign) = match Panel::is_small(records.len(), sales.len()) {
            true => (Detail::Full, 66.0, 68.0, 6.0),
            false => (Detail::Items, 22.0, 26.0, 4.5),
        };
        let x = |at: usize| 96.0 + column * (at as f64 + 0.5);
        let y = |at: usize| top + row * (at as f64 + 0.5);
        Panel {
            detail,
            columns: records.iter().map(|lsn| lsn.0).zip((0..).map(x)).collect(),
            rows: sales.iter().copied().zip((0..).map(y)).collect(),
            column,
            row,
            sign,
            named: true,
            top,
            bottom: top + row * sales.len() as f64,
            right: x(records.len()),
        }
    }

    /// All records; sales that do not overlap share a row.
    pub fn lanes(day: &Day, top: f64) -> Panel {
        let records = day.records.len() as f64;
        let column = (1_640.0 / records).min(7.0);
        // A lane's last record. Lines in one lane are a few points apart.
        let mut lanes: Vec<f64> = Vec::new();
        let gap = 5.0 / column;
        let mut lane_of = Vec::new();
        for sale in &day.sales {
            let span = (sale.records.first(), sale.records.last());
            let (first, last) = match span {
                (Some(first), Some(last)) => (f64::from(first.0), f64::from(last.0)),
                _ => (0.0, 0.0),
            };
            let oldest = (0..lanes.len()).min_by(|a, b| lanes[*a].total_cmp(&lanes[*b]));
            let free = oldest.filter(|lane| lanes.len() >= LANES && lanes[*lane] + gap < first);
            let lane = free.unwrap_or(lanes.len());
            match free {
                Some(lane) => lanes[lane] = last,
                None => lanes.push(last),
            }
            lane_of.push(lane);
        }
        let row = (420.0 / lanes.len() as f64).clamp(3.0, 26.0);
        let goes = |sale: &&Sale| sale.fate == Fate::Goes || sale.listed;
        let going = day.sales.iter().filter(goes).count();
        let x = |lsn: u32| 74.0 + column * (f64::from(lsn) - 0.5);
        let y = |lane: usize| top + row * (lane as f64 + 0.5);
        Panel {
            detail: Detail::None,
            columns: (1..=day.records.len() as u32)
                .map(|lsn| (lsn, x(lsn)))
                .collect(),
            rows: (0..).zip(lane_of.into_iter().map(y)).collect(),
            column,
            row,
            sign: (column * 0.45).clamp(0.4, 2.4),
            named: row >= 9.0 && going <= 100,
            top,
            bottom: top + row * lanes.len() as f64,
            right: x(day.records.len() as u32 + 1),
        }
    }

    pub fn x(&self, lsn: Lsn) -> Option<f64> {
        self.columns.get(&lsn.0).copied()
    }

    pub fn y(&self, sale: usize) -> Option<f64> {
        self.rows.get(&sale).copied()
    }
}

/// All of a day.
pub fn all_records(day: &Day) -> Vec<Lsn> {
    (1..=day.records.len() as u32).map(Lsn).collect()
}

/// The most rows that a larger day's second panel has.
const ROWS: usize = 30;

/// The fewest rows of its first panel, so that arrows have room.
const LANES: usize = 8;

/// The records of a larger day that are drawn in detail: those of the sales that go or, in a refused day,
/// those around its place.
pub fn focus(day: &Day) -> Vec<Lsn> {
    let of_sales = |chosen: &dyn Fn(&&Sale) -> bool| {
        let sales = day.sales.iter().filter(chosen).take(ROWS);
        let mut records: Vec<Lsn> = sales.flat_map(|sale| sale.records.clone()).collect();
        records.sort();
        records.truncate(90);
        records
    };
    let Err(refusal) = &day.result else {
        return of_sales(&|sale| sale.fate == Fate::Goes);
    };
    let around = |lsn: Lsn| lsn.0.saturating_sub(15)..=lsn.0.saturating_add(15);
    match refusal.place {
        Place::Record(lsn) => {
            let near = around(lsn);
            let mut records = all_records(day);
            records.retain(|lsn| near.contains(&lsn.0));
            records
        }
        Place::Item(item) => {
            let mut records = all_records(day);
            records.retain(|lsn| day.record(*lsn).accesses(item));
            records.split_off(records.len().saturating_sub(31))
        }
        Place::Transaction(number) => of_sales(&|sale| sale.number == number),
        _ => Vec::new(),
    }
}
