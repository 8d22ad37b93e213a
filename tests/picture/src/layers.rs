//! The crates and what each builds on, from crates.txt, as a picture: the lowest layer at the bottom. Of the
//! crates that a crate may use only those are joined to it that it does not have through another one.

use std::collections::{BTreeMap, BTreeSet};
use std::fmt::Write;

/// What a crate holds, in a few words; one that is not here is drawn by its name alone.
const HOLDS: [(&str, &str); 42] = [
    ("lists", "any list"),
    ("model", "transactions, no bytes"),
    ("example", "the example day"),
    ("format", "the 20-byte record"),
    ("journal", "document 01 at the bytes"),
    ("demands", "the demands, proved"),
    ("days", "worked days, proved"),
    ("init", "start"),
    ("fields", "refusals 1, 2 and 4"),
    ("counts", "count, the tally"),
    ("net", "the sum of the writes"),
    ("arrays", "the working arrays"),
    ("note", "a record into the arrays"),
    ("rules", "rules 6 to 9"),
    ("scan", "the pass, rules 4 to 9"),
    ("settle", "rule 10, who is active"),
    ("validate", "check"),
    ("chain", "slip"),
    ("entry", "15 and the new record"),
    ("extend", "one record more, written"),
    ("append", "post"),
    ("trace", "which sales go"),
    ("replay", "table left, marks"),
    ("repair", "the copy"),
    ("examine", "refusals 1 to 13"),
    ("deliver", "14, then what is lent"),
    ("undo", "take-back"),
    ("certified", "calls with their demands"),
    ("decode", "the files' bytes"),
    ("text", "decimals, single lines"),
    ("lines", "the report's lines"),
    ("report", "take-back's report"),
    ("day_report", "the report on files"),
    ("worked", "worked statements"),
    ("files", "a folder's files"),
    ("takeback", "the program"),
    ("day_folders", "many folders of days"),
    ("c_answers", "an answer for C"),
    ("c_append", "post, for C"),
    ("c_calls", "the other calls, for C"),
    ("c_undo", "take-back, for C"),
    ("capi", "the C interface"),
];

/// The crates that answer a call, and those that only state and prove.
const CALLS: [&str; 6] = ["init", "counts", "validate", "append", "chain", "undo"];
const STATEMENTS: [&str; 3] = ["demands", "days", "worked"];

const WIDTH: f64 = 158.0;
const HEIGHT: f64 = 44.0;
const ACROSS: f64 = 178.0;
const UP: f64 = 84.0;

/// Each crate with those that it may use; libraries of the kit are left out.
fn read(text: &str) -> BTreeMap<&str, BTreeSet<&str>> {
    let lines = text.lines().filter(|line| !line.starts_with('#'));
    // Behind the name may stand `staticlib`.
    let pairs = lines.filter_map(|line| {
        let (head, used) = line.split_once(':')?;
        Some((head.split_whitespace().next()?, used))
    });
    let mut uses: BTreeMap<&str, BTreeSet<&str>> = pairs
        .map(|(name, used)| (name, used.split_whitespace().collect()))
        .collect();
    let names: BTreeSet<&str> = uses.keys().copied().collect();
    for used in uses.values_mut() {
        used.retain(|name| names.contains(name));
    }
    uses
}

/// All that a crate has below it.
fn below<'a>(uses: &BTreeMap<&'a str, BTreeSet<&'a str>>, name: &str) -> BTreeSet<&'a str> {
    let mut found = BTreeSet::new();
    let mut next: Vec<&str> = uses[name].iter().copied().collect();
    while let Some(name) = next.pop() {
        if found.insert(name) {
            next.extend(&uses[name]);
        }
    }
    found
}

/// A crate, or a bend of a line that passes a row.
#[derive(Clone, Copy, PartialEq)]
enum Node<'a> {
    Crate(&'a str),
    Bend,
}

/// The nodes with their rows and places, and the lines between nodes of rows next to each other.
struct Graph<'a> {
    nodes: Vec<Node<'a>>,
    rows: Vec<Vec<usize>>,
    lines: Vec<(usize, usize)>,
}

impl<'a> Graph<'a> {
    fn new(uses: &BTreeMap<&'a str, BTreeSet<&'a str>>) -> Graph<'a> {
        // The lowest row that a crate can have; then as high as those that use it allow.
        let mut row: BTreeMap<&str, usize> = uses.keys().map(|name| (*name, 0)).collect();
        for _ in uses {
            for (name, used) in uses {
                let lowest = used.iter().map(|used| row[used] + 1).max().unwrap_or(0);
                row.insert(name, lowest);
            }
        }
        for _ in uses {
            for name in uses.keys() {
                let users = uses.iter().filter(|(_, used)| used.contains(name));
                if let Some(lowest) = users.map(|(user, _)| row[user]).min() {
                    row.insert(name, lowest - 1);
                }
            }
        }
        let count = row.values().max().map_or(0, |row| row + 1);
        let mut graph = Graph {
            nodes: Vec::new(),
            rows: vec![Vec::new(); count],
            lines: Vec::new(),
        };
        let mut at = BTreeMap::new();
        for (name, row) in &row {
            at.insert(*name, graph.add(Node::Crate(name), *row));
        }
        for (name, used) in uses {
            let through: BTreeSet<&str> = used.iter().flat_map(|used| below(uses, used)).collect();
            for used in used.difference(&through) {
                let mut from = at[used];
                for between in row[used] + 1..row[name] {
                    let bend = graph.add(Node::Bend, between);
                    graph.lines.push((from, bend));
                    from = bend;
                }
                graph.lines.push((from, at[name]));
            }
        }
        graph
    }

    fn add(&mut self, node: Node<'a>, row: usize) -> usize {
        self.nodes.push(node);
        self.rows[row].push(self.nodes.len() - 1);
        self.nodes.len() - 1
    }

    /// Places in each row, such that few lines cross: each node near the middle of its neighbours.
    fn places(&mut self) -> Vec<f64> {
        let mut place = vec![0.0; self.nodes.len()];
        let mut best = (usize::MAX, place.clone());
        self.spread(&mut place);
        for sweep in 0..40 {
            let upwards = sweep % 2 == 0;
            let count = self.rows.len();
            for at in 0..count {
                let row = if upwards { at } else { count - 1 - at };
                let middle = |node: usize| {
                    let near = self.lines.iter().filter_map(|(low, high)| match upwards {
                        true if *high == node => Some(place[*low]),
                        false if *low == node => Some(place[*high]),
                        _ => None,
                    });
                    let near: Vec<f64> = near.collect();
                    match near.len() {
                        0 => place[node],
                        count => near.iter().sum::<f64>() / count as f64,
                    }
                };
                let mut keyed: Vec<(f64, usize)> = self.rows[row]
                    .iter()
                    .map(|node| (middle(*node), *node))
                    .collect();
                keyed.sort_by(|a, b| a.0.total_cmp(&b.0).then(a.1.cmp(&b.1)));
                self.rows[row] = keyed.into_iter().map(|(_, node)| node).collect();
                self.spread(&mut place);
            }
            let crossings = self.crossings(&place);
            if crossings < best.0 {
                best = (crossings, place.clone());
            }
        }
        self.straighten(&mut best.1);
        best.1
    }

    fn room(&self, node: usize) -> f64 {
        match self.nodes[node] {
            Node::Crate(_) => 1.0,
            Node::Bend => 0.35,
        }
    }

    /// Moves each node towards the middle of its neighbours, as far as the order in its row allows.
    fn straighten(&self, place: &mut [f64]) {
        for _ in 0..200 {
            for row in &self.rows {
                let mut order = row.clone();
                order.sort_by(|a, b| place[*a].total_cmp(&place[*b]));
                let wanted: Vec<f64> = order
                    .iter()
                    .map(|node| self.between(place, *node))
                    .collect();
                let gap = |a: usize, b: usize| (self.room(order[a]) + self.room(order[b])) / 2.0;
                // Pushed apart from the left and from the right; between two such rows there is room too.
                let (mut left, mut right) = (wanted.clone(), wanted);
                for at in 1..order.len() {
                    left[at] = left[at].max(left[at - 1] + gap(at - 1, at));
                }
                for at in (1..order.len()).rev() {
                    right[at - 1] = right[at - 1].min(right[at] - gap(at - 1, at));
                }
                for (at, node) in order.iter().enumerate() {
                    place[*node] = (left[at] + right[at]) / 2.0;
                }
            }
        }
    }

    /// The middle of a node's neighbours; a bend counts more than a crate, so that long lines are straight.
    fn between(&self, place: &[f64], node: usize) -> f64 {
        let near = self.lines.iter().filter_map(|(low, high)| match node {
            _ if *low == node => Some(*high),
            _ if *high == node => Some(*low),
            _ => None,
        });
        let (mut sum, mut weights) = (place[node] * 0.5, 0.5);
        for other in near {
            let both = self.nodes[node] == Node::Bend && self.nodes[other] == Node::Bend;
            let weight = if both { 4.0 } else { 1.0 };
            sum += place[other] * weight;
            weights += weight;
        }
        sum / weights
    }

    /// Each row's nodes side by side, about a common middle. A bend needs less room.
    fn spread(&self, place: &mut [f64]) {
        for row in &self.rows {
            let room = |node: &usize| self.room(*node);
            let mut x = -row.iter().map(room).sum::<f64>() / 2.0;
            for node in row {
                place[*node] = x + room(node) / 2.0;
                x += room(node);
            }
        }
    }

    fn crossings(&self, place: &[f64]) -> usize {
        let row_of = |node: usize| self.rows.iter().position(|row| row.contains(&node));
        let crosses = |a: &(usize, usize), b: &(usize, usize)| {
            row_of(a.0) == row_of(b.0)
                && (place[a.0] - place[b.0]) * (place[a.1] - place[b.1]) < 0.0
        };
        let lines = &self.lines;
        let pairs = (0..lines.len()).flat_map(|i| (0..i).map(move |j| (i, j)));
        pairs
            .filter(|(i, j)| crosses(&lines[*i], &lines[*j]))
            .count()
    }
}

/// The picture of the layers in the text of crates.txt.
pub fn layers(text: &str) -> String {
    let uses = read(text);
    let mut graph = Graph::new(&uses);
    let place = graph.places();
    let least = place.iter().copied().fold(f64::MAX, f64::min);
    let most = place.iter().copied().fold(f64::MIN, f64::max);
    let x = |node: usize| 24.0 + WIDTH / 2.0 + (place[node] - least) * ACROSS;
    let height = 56.0 + UP * graph.rows.len() as f64;
    let width = 48.0 + WIDTH + (most - least) * ACROSS;
    let mut y = vec![0.0; graph.nodes.len()];
    for (row, nodes) in graph.rows.iter().enumerate() {
        for node in nodes {
            y[*node] = height - 52.0 - UP * (row as f64 + 0.5);
        }
    }

    let mut svg = String::new();
    put!(
        svg,
        "<svg xmlns=\"http://www.w3.org/2000/svg\" width=\"{width:.0}\" height=\"{height:.0}\" \
         viewBox=\"0 0 {width:.0} {height:.0}\" font-family=\"DejaVu Sans, Verdana, sans-serif\">"
    );
    put!(svg, "<rect width=\"100%\" height=\"100%\" fill=\"white\"/>");
    for (low, high) in &graph.lines {
        let half = |node: usize| {
            if graph.nodes[node] == Node::Bend {
                0.0
            } else {
                HEIGHT / 2.0
            }
        };
        let (x1, y1) = (x(*low), y[*low] - half(*low));
        let (x2, y2) = (x(*high), y[*high] + half(*high));
        let middle = (y1 + y2) / 2.0;
        put!(
            svg,
            "<path d=\"M{x1:.1} {y1:.1} C{x1:.1} {middle:.1} {x2:.1} {middle:.1} {x2:.1} {y2:.1}\" \
             stroke=\"#9aa5b1\" stroke-width=\"1.6\" fill=\"none\"/>"
        );
    }
    for (index, node) in graph.nodes.iter().enumerate() {
        let Node::Crate(name) = node else {
            continue;
        };
        let (left, top) = (x(index) - WIDTH / 2.0, y[index] - HEIGHT / 2.0);
        let (fill, edge) = colours(name);
        let (middle, first, second) = (x(index), y[index] - 3.0, y[index] + 13.0);
        let holds = HOLDS.iter().find(|(known, _)| known == name);
        let holds = holds.map_or("", |(_, holds)| holds);
        put!(
            svg,
            "<rect x=\"{left:.1}\" y=\"{top:.1}\" width=\"{WIDTH}\" height=\"{HEIGHT}\" rx=\"6\" fill=\"{fill}\" stroke=\"{edge}\" stroke-width=\"1.4\"/>\
             <text x=\"{middle:.1}\" y=\"{first:.1}\" text-anchor=\"middle\" font-size=\"13\" font-weight=\"bold\" fill=\"#222\">{name}</text>\
             <text x=\"{middle:.1}\" y=\"{second:.1}\" text-anchor=\"middle\" font-size=\"10.5\" fill=\"#444\">{holds}</text>"
        );
    }
    let y = height - 26.0;
    let mut x = 28.0;
    for (of, word) in [
        ("undo", "one of the calls"),
        ("demands", "statements and proofs alone"),
        (
            "model",
            "all else; a line joins a crate with what it builds on, below it",
        ),
    ] {
        let (fill, edge) = colours(of);
        let (top, after, text) = (y - 9.0, x + 24.0, y + 4.0);
        put!(
            svg,
            "<rect x=\"{x}\" y=\"{top}\" width=\"18\" height=\"18\" rx=\"4\" fill=\"{fill}\" stroke=\"{edge}\"/>\
             <text x=\"{after}\" y=\"{text}\" font-size=\"12\" fill=\"#222\">{word}</text>"
        );
        x += 48.0 + 6.9 * word.len() as f64;
    }
    svg += "</svg>\n";
    svg
}

/// Fill and edge of a crate's box.
fn colours(name: &str) -> (&'static str, &'static str) {
    if CALLS.contains(&name) {
        ("#d6e8f7", "#0a66a8")
    } else if STATEMENTS.contains(&name) {
        ("#fbe6dc", "#c8450a")
    } else {
        ("#f3f4f6", "#8c8c8c")
    }
}
