//! The drawing. Time runs to the right, a column a record; a sale is a row.

use crate::day::{Day, Fate, Sale, Totals};
use crate::panel::{all_records, focus, Detail, Panel};
use journal::{kind, Lsn, Place, Record, Refusal};
use std::cmp::Ordering;
use std::fmt::Write;

/// Blue and vermilion are told apart by colour-blind people too; the lines differ in their dashes.
const GOES: &str = "#c8450a";
const STAYS: &str = "#0a66a8";
const DROPPED: &str = "#8c8c8c";
const UNDECIDED: &str = "#444444";

fn colour(fate: Fate) -> &'static str {
    match fate {
        Fate::Goes => GOES,
        Fate::Stays => STAYS,
        Fate::Dropped => DROPPED,
        Fate::Undecided => UNDECIDED,
    }
}

/// The name of a fate in the style sheet.
fn class(fate: Fate) -> &'static str {
    match fate {
        Fate::Goes => "goes",
        Fate::Stays => "stays",
        Fate::Dropped => "dropped",
        Fate::Undecided => "undecided",
    }
}

/// The picture of a day. A small day is one panel; of a larger one there is the whole day, with lines that
/// share rows, and below it the sales that matter, each with a row of its own.
pub fn draw(day: &Day) -> String {
    let top = if day.result.is_err() { 150.0 } else { 112.0 };
    let panels = if Panel::is_small(day.records.len(), day.sales.len()) {
        vec![Panel::rows(day, &all_records(day), top)]
    } else {
        let whole = Panel::lanes(day, top);
        let shown = focus(day);
        let below = whole.bottom + 76.0;
        let mut panels = vec![whole];
        if !shown.is_empty() {
            panels.push(Panel::rows(day, &shown, below));
        }
        panels
    };
    let wide = panels.iter().map(|panel| panel.right + 24.0);
    let width = wide.fold(780.0, f64::max);
    let foot = panels.iter().map(|panel| panel.bottom).fold(top, f64::max) + 22.0;
    let height = foot + 52.0 + 18.0 * changes(day).len() as f64;

    let mut svg = String::new();
    open(&mut svg, width, height);
    heading(&mut svg, day);
    for panel in &panels {
        if let Err(refusal) = &day.result {
            mark_place(&mut svg, day, panel, refusal);
        }
        axis(&mut svg, panel);
        for (index, sale) in day.sales.iter().enumerate() {
            line(&mut svg, panel, index, sale);
        }
        // What goes is drawn over what stays.
        for goes in [false, true] {
            for feed in &day.feeds {
                if (day.sales[day.row(feed.1)].fate == Fate::Goes) == goes {
                    arrow(&mut svg, day, panel, *feed);
                }
            }
        }
        for (index, sale) in day.sales.iter().enumerate() {
            for &lsn in &sale.records {
                sign(&mut svg, day, panel, index, sale, lsn);
            }
        }
    }
    let whole = "The whole day; lines that do not overlap share a row".to_string();
    let words = match &panels[..] {
        [one] if one.detail != Detail::None => vec![],
        [_] => vec![whole],
        [_, part, ..] => vec![whole, focused(day, part)],
        [] => vec![],
    };
    for (panel, words) in panels.iter().zip(words) {
        let y = panel.top - 34.0;
        put!(
            svg,
            "<text x=\"20\" y=\"{y:.1}\" class=\"part\">{words}</text>"
        );
    }
    legend(&mut svg, day, foot);
    svg += "</svg>\n";
    svg
}

/// The words over the second panel.
fn focused(day: &Day, panel: &Panel) -> String {
    let Err(refusal) = &day.result else {
        let going = day
            .sales
            .iter()
            .filter(|sale| sale.fate == Fate::Goes)
            .count();
        let more = match going - panel.rows.len() {
            0 => String::new(),
            more => format!("; {more} more are not drawn here"),
        };
        return format!(
            "What goes, with its records alone: {}{more}",
            counted(going, "sale")
        );
    };
    match refusal.place {
        Place::Record(lsn) => format!("The records around record {lsn}"),
        Place::Item(item) => format!("The last records of item {item}"),
        Place::Transaction(sale) => format!("The records of sale {sale}"),
        _ => String::new(),
    }
}

fn open(svg: &mut String, width: f64, height: f64) {
    put!(
        svg,
        "<svg xmlns=\"http://www.w3.org/2000/svg\" width=\"{width:.0}\" height=\"{height:.0}\" \
         viewBox=\"0 0 {width:.0} {height:.0}\" font-family=\"DejaVu Sans, Verdana, sans-serif\">"
    );
    put!(svg, "<style>");
    put!(svg, "text {{ fill: #222; font-size: 12px }}");
    put!(svg, "text.axis {{ fill: #777; font-size: 11px }}");
    put!(
        svg,
        ".halo {{ paint-order: stroke; stroke: white; stroke-width: 3px }}"
    );
    for fate in [Fate::Goes, Fate::Stays, Fate::Dropped, Fate::Undecided] {
        let (name, colour) = (class(fate), colour(fate));
        put!(svg, ".{name} {{ stroke: {colour}; fill: none }}");
        put!(svg, ".{name}-sign {{ stroke: {colour}; fill: {colour} }}");
        put!(svg, "text.{name}-text {{ fill: {colour} }}");
    }
    put!(
        svg,
        "text.part {{ fill: #444; font-size: 13px; font-style: italic }}"
    );
    put!(svg, "</style>");
    put!(svg, "<defs>");
    for fate in [Fate::Goes, Fate::Stays, Fate::Dropped] {
        let (name, colour) = (class(fate), colour(fate));
        for (size, head) in [("", 7.0), ("-small", 4.0)] {
            put!(
                svg,
                "<marker id=\"{name}-head{size}\" viewBox=\"0 0 10 10\" refX=\"9.5\" refY=\"5\" \
                 markerUnits=\"userSpaceOnUse\" markerWidth=\"{head}\" markerHeight=\"{head}\" \
                 orient=\"auto\"><path d=\"M0 1 L10 5 L0 9 z\" fill=\"{colour}\"/></marker>"
            );
        }
    }
    put!(svg, "</defs>");
    put!(svg, "<rect width=\"100%\" height=\"100%\" fill=\"white\"/>");
}

fn counted(number: usize, what: &str) -> String {
    match number {
        1 => format!("1 {what}"),
        _ => format!("{number} {what}s"),
    }
}

/// The bad list, its first names.
fn listed(day: &Day) -> String {
    const SHOWN: usize = 24;
    let names: Vec<String> = day
        .bad
        .iter()
        .take(SHOWN)
        .map(|sale| sale.to_string())
        .collect();
    match day.bad.len() {
        0 => "empty".to_string(),
        names_in_all if names_in_all > SHOWN => {
            format!("{} and {} more", names.join(" "), names_in_all - SHOWN)
        }
        _ => names.join(" "),
    }
}

fn heading(svg: &mut String, day: &Day) {
    let records = counted(day.records.len(), "record");
    let sales = counted(day.sales.len(), "sale");
    let list = listed(day);
    put!(
        svg,
        "<text x=\"20\" y=\"30\" style=\"font-size: 17px\">A day of {records} and {sales}; bad list: {list}</text>"
    );
    match &day.result {
        Ok(Totals {
            kept,
            back,
            dropped,
            copied,
        }) => {
            let copy = counted(*copied, "record");
            put!(
                svg,
                "<text x=\"20\" y=\"54\" style=\"font-size: 14px\">\
                 <tspan fill=\"{GOES}\">{back} taken back</tspan>, <tspan fill=\"{STAYS}\">{kept} kept</tspan>, \
                 <tspan fill=\"{DROPPED}\">{dropped} dropped</tspan>; a copy of {copy}</text>"
            );
        }
        Err(refusal) => {
            let (number, place) = (refusal.number, refusal.place.number());
            put!(
                svg,
                "<rect x=\"12\" y=\"44\" width=\"756\" height=\"58\" rx=\"6\" fill=\"#fbe6dc\"/>"
            );
            put!(
                svg,
                "<text x=\"24\" y=\"68\" class=\"goes-text\" style=\"font-size: 16px; font-weight: bold\">\
                 REFUSED {number} {place}: {refusal}</text>"
            );
            put!(svg, "<text x=\"24\" y=\"90\">{}</text>", reason(refusal));
        }
    }
}

/// The condition of a refusal, for whoever does not have the table of them.
fn reason(refusal: &Refusal) -> &'static str {
    match refusal.number {
        1 => "the journal ends before the last record that its head counts, or has no whole head",
        2 => "a field of the head is not as in the layout",
        3 => "the table does not have one amount for each item",
        4 => "a field of this record is not as in the layout",
        5 => "next of this record is not the sale's next record",
        6 => "the sale of this record had already ended",
        7 => "another sale, still open, has written this item, or has read it and this is a write",
        8 => "the sale writes an item that it has not read",
        9 => "before of this write is not the amount that the item had",
        10 => "the table does not have the amount that the records leave in this item",
        11 => "this sale has no end",
        12 => "the name at this position of the bad list, counted from 0, is no committed sale",
        _ => "",
    }
}

/// Shows the place of a refusal in a panel: a record, an item or a sale.
fn mark_place(svg: &mut String, day: &Day, panel: &Panel, refusal: &Refusal) {
    const MARK: &str = "fill=\"#f6c9b4\" class=\"place\"";
    let column = |lsn: Lsn| {
        let width = panel.column.max(5.0);
        let Some(x) = panel.x(lsn).map(|x| x - width / 2.0) else {
            return String::new();
        };
        let y = panel.top - 24.0;
        let height = panel.bottom - y;
        format!("<rect x=\"{x:.1}\" y=\"{y:.1}\" width=\"{width:.1}\" height=\"{height:.1}\" {MARK}/>\n")
    };
    match refusal.place {
        Place::Record(lsn) => *svg += &column(lsn),
        // The write that left the amount, or that a rollback has undone.
        Place::Item(item) => {
            let written = |lsn: &Lsn| {
                let record = day.record(*lsn);
                record.kind == kind::WRITE && record.item == item
            };
            if let Some(lsn) = all_records(day).into_iter().rfind(written) {
                *svg += &column(lsn);
            }
        }
        Place::Transaction(sale) => {
            let index = day.sales.iter().position(|of| of.number == sale);
            if let Some(y) = index.and_then(|index| panel.y(index)) {
                let (y, width, height) = (y - panel.row / 2.0, panel.right - 8.0, panel.row);
                put!(
                    svg,
                    "<rect x=\"8\" y=\"{y:.1}\" width=\"{width:.1}\" height=\"{height:.1}\" {MARK}/>"
                );
            }
        }
        _ => {}
    }
}

/// The record numbers above the columns. Where a panel leaves records out, each of its records has one.
fn axis(svg: &mut String, panel: &Panel) {
    let y = panel.top - 12.0;
    put!(
        svg,
        "<text x=\"20\" y=\"{y:.1}\" class=\"axis\">record</text>"
    );
    let mut numbers: Vec<u32> = panel.columns.keys().copied().collect();
    numbers.sort();
    let step = match panel.detail {
        Detail::Full | Detail::Items => 1,
        Detail::None => [10, 20, 50, 100]
            .into_iter()
            .find(|step| f64::from(*step) * panel.column > 30.0)
            .unwrap_or(200),
    };
    let font = if panel.detail == Detail::Items { 8 } else { 11 };
    for number in numbers.into_iter().filter(|n| *n == 1 || n % step == 0) {
        let (x, top, bottom) = (panel.columns[&number], panel.top - 6.0, panel.bottom);
        put!(
            svg,
            "<text x=\"{x:.1}\" y=\"{y:.1}\" text-anchor=\"middle\" class=\"axis\" style=\"font-size: {font}px\">{number}</text>\
             <path d=\"M{x:.1} {top:.1} V{bottom:.1}\" stroke=\"#eee\"/>"
        );
    }
}

/// The line of a sale, with its number.
fn line(svg: &mut String, panel: &Panel, index: usize, sale: &Sale) {
    let mut shown = sale.records.iter().filter_map(|lsn| panel.x(*lsn));
    let (Some(from), Some(y)) = (shown.next(), panel.y(index)) else {
        return;
    };
    let to = shown.next_back().unwrap_or(from);
    let small = panel.detail == Detail::None;
    let scale = if small { 0.4 } else { 1.0 };
    let dashes = match sale.fate {
        Fate::Goes => format!("stroke-dasharray=\"{} {}\"", 9.0 * scale, 4.0 * scale),
        Fate::Dropped => format!("stroke-dasharray=\"{} {}\"", 2.0 * scale, 3.0 * scale),
        _ => String::new(),
    };
    let width = match (small, sale.fate) {
        (true, Fate::Goes) => 2.4,
        (true, _) => 1.4,
        (false, Fate::Goes) => 3.4,
        (false, _) => 2.4,
    };
    // A sale of one record has a line that can be seen in the small.
    let to = if small { to.max(from + 1.0) } else { to };
    let (name, number) = (class(sale.fate), sale.number);
    put!(
        svg,
        "<path class=\"sale {name}\" d=\"M{from:.1} {y:.1} H{to:.1}\" stroke-width=\"{width}\" {dashes}><title>{}</title></path>",
        told(sale)
    );
    let bold = if sale.listed {
        "; font-weight: bold"
    } else {
        ""
    };
    let tag = if sale.listed { " bad" } else { "" };
    if !small {
        let y = y + 4.0;
        put!(
            svg,
            "<text x=\"20\" y=\"{y:.1}\" class=\"{name}-text\" style=\"font-size: 13px{bold}\">sale {number}{tag}</text>"
        );
    } else if panel.named && (sale.fate == Fate::Goes || sale.listed) {
        let y = y - 3.5;
        put!(
            svg,
            "<text x=\"{from:.1}\" y=\"{y:.1}\" class=\"halo {name}-text\" style=\"font-size: 8px{bold}\">{number}</text>"
        );
    }
}

/// A sale in words.
fn told(sale: &Sale) -> String {
    let listed = if sale.listed { ", listed as bad" } else { "" };
    let fate = match sale.fate {
        Fate::Goes => ": taken back",
        Fate::Stays => ": kept",
        Fate::Dropped => ": rolled back, dropped",
        Fate::Undecided => "",
    };
    format!("sale {}{listed}{fate}", sale.number)
}

/// An arrow from a write to a read that it feeds, in the colour of the writing sale.
fn arrow(svg: &mut String, day: &Day, panel: &Panel, (read, write): (Lsn, Lsn)) {
    let (from, to) = (day.row(write), day.row(read));
    let ends = (panel.x(write), panel.y(from), panel.x(read), panel.y(to));
    let (Some(x1), Some(y1), Some(x2), Some(y2)) = ends else {
        return;
    };
    // Down or up to another row; in one row an arc above it.
    let (leave, arrive) = match y1.total_cmp(&y2) {
        Ordering::Less => (1.0, -1.0),
        Ordering::Greater => (-1.0, 1.0),
        Ordering::Equal => (-1.0, -1.0),
    };
    let small = panel.detail == Detail::None;
    let reach = match y1 == y2 {
        true if small => ((x2 - x1) * 0.12).clamp(4.0, panel.row * 1.2 + 4.0),
        true => panel.row * 0.36,
        false => ((y2 - y1).abs() * 0.55).min(panel.row * 2.0),
    };
    let (y1, y2) = (y1 + leave * panel.sign, y2 + arrive * (panel.sign + 1.0));
    let (c1, c2) = (y1 + leave * reach, y2 + arrive * reach);
    let fate = day.sales[from].fate;
    let (size, width, faint) = match (small, fate) {
        (false, _) => ("", 1.6, ""),
        (true, Fate::Goes) => ("-small", 1.2, ""),
        (true, _) if panel.column > 3.0 => ("-small", 0.9, " opacity=\"0.6\""),
        (true, _) => ("-small", 0.5, " opacity=\"0.3\""),
    };
    let (name, item) = (class(fate), day.record(read).item);
    let (writer, reader) = (day.sales[from].number, day.sales[to].number);
    put!(
        svg,
        "<path class=\"feeds {name}\" d=\"M{x1:.1} {y1:.1} C{x1:.1} {c1:.1} {x2:.1} {c2:.1} {x2:.1} {y2:.1}\" \
         stroke-width=\"{width}\" marker-end=\"url(#{name}-head{size})\"{faint}>\
         <title>item {item}: sale {writer}, record {write}, feeds sale {reader}, record {read}</title></path>"
    );
}

/// A record in words.
fn act(record: &Record) -> String {
    let (item, before, after) = (record.item, record.before, record.after);
    match record.kind {
        kind::READ => format!("reads item {item}"),
        kind::WRITE => format!("writes item {item}: {before} to {after}"),
        kind::COMMIT => "commits".to_string(),
        kind::ABORT => "rolls back".to_string(),
        other => format!("has kind {other}"),
    }
}

/// The sign of a kind of record at a place.
fn shape(of: u8, x: f64, y: f64, half: f64, name: &str) -> String {
    match of {
        kind::READ => {
            format!("<circle cx=\"{x:.1}\" cy=\"{y:.1}\" r=\"{half}\" class=\"{name}\" style=\"fill: white; stroke-width: {:.1}\">", half / 3.0)
        }
        kind::WRITE => {
            let (left, top, side) = (x - half, y - half, 2.0 * half);
            format!("<rect x=\"{left:.1}\" y=\"{top:.1}\" width=\"{side}\" height=\"{side}\" class=\"{name}-sign\">")
        }
        kind::COMMIT => {
            let (top, tall) = (y - 1.4 * half, 2.8 * half);
            format!("<path d=\"M{x:.1} {top:.1} v{tall:.1}\" class=\"{name}\" stroke-width=\"{:.1}\">", half * 0.8)
        }
        kind::ABORT => {
            let (left, top, side) = (x - half, y - half, 2.0 * half);
            format!(
                "<path d=\"M{left:.1} {top:.1} l{side} {side} m0 -{side} l-{side} {side}\" class=\"{name}\" stroke-width=\"{:.1}\">",
                half * 0.5
            )
        }
        _ => format!("<path d=\"M{x:.1} {y:.1} h0.1\" stroke-linecap=\"round\" class=\"{name}\" stroke-width=\"{half}\">"),
    }
}

/// The tag that closes a sign.
fn closing(shape: &str) -> &'static str {
    match shape.as_bytes().get(1) {
        Some(b'c') => "</circle>",
        Some(b'r') => "</rect>",
        _ => "</path>",
    }
}

/// The amounts of a write, as many as there is room for.
fn amounts(record: &Record) -> String {
    let both = format!("{} \u{2192} {}", record.before, record.after);
    match both.chars().count() {
        ..=13 => both,
        _ => format!("\u{2192} {}", record.after),
    }
}

fn sign(svg: &mut String, day: &Day, panel: &Panel, index: usize, sale: &Sale, lsn: Lsn) {
    let record = day.record(lsn);
    let (Some(x), Some(y)) = (panel.x(lsn), panel.y(index)) else {
        return;
    };
    if panel.detail == Detail::None && panel.sign < 1.0 {
        return;
    }
    let shape = shape(record.kind, x, y, panel.sign, class(sale.fate));
    let (number, act) = (sale.number, act(record));
    let close = closing(&shape);
    put!(
        svg,
        "{shape}<title>record {lsn}: sale {number} {act}</title>{close}"
    );
    let item = record.item;
    let accesses = matches!(record.kind, kind::READ | kind::WRITE);
    match panel.detail {
        Detail::Full => {
            let first = match record.kind {
                kind::READ | kind::WRITE => format!("item {item}"),
                kind::COMMIT => "commit".to_string(),
                kind::ABORT => "rollback".to_string(),
                other => format!("kind {other}"),
            };
            // An arrow leaves a write downwards and reaches a read from above, so words stand on the other side.
            let lines = match record.kind {
                kind::WRITE => vec![(y - 24.0, first), (y - 12.0, amounts(record))],
                _ => vec![(y + 21.0, first)],
            };
            for (y, text) in lines {
                put!(
                    svg,
                    "<text x=\"{x:.1}\" y=\"{y:.1}\" text-anchor=\"middle\" class=\"halo\" style=\"font-size: 10px\">{text}</text>"
                );
            }
        }
        Detail::Items if accesses => {
            let below = y + 13.0;
            put!(
                svg,
                "<text x=\"{x:.1}\" y=\"{below:.1}\" text-anchor=\"middle\" class=\"halo\" style=\"font-size: 7.5px\">{item}</text>"
            );
        }
        _ => {}
    }
}

/// The changed items, a line each, the first of them.
fn changes(day: &Day) -> Vec<String> {
    const SHOWN: usize = 12;
    let shown = day.changed.iter().take(SHOWN);
    let mut lines: Vec<String> = shown
        .map(|(item, old, new)| format!("item {item}: {old} \u{2192} {new}"))
        .collect();
    if day.changed.len() > SHOWN {
        lines.push(format!(
            "and {}",
            counted(day.changed.len() - SHOWN, "more item")
        ));
    }
    lines
}

/// What the signs mean, and the items that the take-back changes.
fn legend(svg: &mut String, day: &Day, y: f64) {
    let text = y + 4.0;
    let mut x = 26.0;
    let neutral = class(Fate::Undecided);
    for (of, word) in [
        (kind::READ, "read"),
        (kind::WRITE, "write"),
        (kind::COMMIT, "commit"),
        (kind::ABORT, "rollback"),
    ] {
        let shape = shape(of, x, y, 5.0, neutral);
        let close = closing(&shape);
        let after = x + 12.0;
        put!(
            svg,
            "{shape}{close}<text x=\"{after}\" y=\"{text}\">{word}</text>"
        );
        x += 34.0 + 7.4 * word.len() as f64;
    }
    x += 8.0;
    let fates = [
        (Fate::Goes, "taken back", " stroke-dasharray=\"9 4\""),
        (Fate::Stays, "kept", ""),
        (Fate::Dropped, "dropped", " stroke-dasharray=\"2 3\""),
    ];
    for (fate, word, dashes) in fates.into_iter().filter(|_| day.result.is_ok()) {
        let (name, after) = (class(fate), x + 40.0);
        put!(
            svg,
            "<path class=\"{name}\" d=\"M{x} {y} h34\" stroke-width=\"3\"{dashes}/><text x=\"{after}\" y=\"{text}\">{word}</text>"
        );
        x += 54.0 + 7.4 * word.len() as f64;
    }
    if day.result.is_ok() {
        let (colour, end, tip, after) = (UNDECIDED, x + 27.0, x + 34.0, x + 40.0);
        let (above, below) = (y - 4.0, y + 4.0);
        put!(
            svg,
            "<path d=\"M{x} {y} H{end}\" stroke=\"{colour}\" stroke-width=\"1.6\"/>\
             <path d=\"M{end} {above} L{tip} {y} L{end} {below} z\" fill=\"{colour}\"/>\
             <text x=\"{after}\" y=\"{text}\">a write feeds a read</text>"
        );
    }
    for (line, change) in changes(day).iter().enumerate() {
        let y = y + 30.0 + 18.0 * line as f64;
        put!(
            svg,
            "<text x=\"20\" y=\"{y:.1}\" style=\"font-size: 13px\">{change}</text>"
        );
    }
}
