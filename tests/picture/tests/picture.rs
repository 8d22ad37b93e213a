//! The pictures: docs/example.svg is made by this; every day has one that is well formed, with a line for
//! each sale and an arrow for each read that a write feeds, in the colours of the report.

use picture::picture;
use plain::days::day;
use plain::run::scaled;
use std::fs;
use std::path::Path;

fn root() -> &'static Path {
    Path::new(concat!(env!("CARGO_MANIFEST_DIR"), "/../.."))
}

/// The three files of a folder; what is missing, or is no file, is empty.
fn files(folder: &Path) -> [Vec<u8>; 3] {
    ["journal.bin", "table.bin", "bad.bin"]
        .map(|name| fs::read(folder.join(name)).unwrap_or_default())
}

/// Each tag is closed, in turn, and each attribute is quoted.
fn assert_well_formed(svg: &str) {
    let mut open = Vec::new();
    let mut rest = svg;
    while let Some((text, tag)) = rest.split_once('<') {
        assert!(!text.contains('>') && !text.contains('&'), "{text}");
        let (tag, after) = tag.split_once('>').unwrap();
        rest = after;
        assert_eq!(tag.matches('"').count() % 2, 0, "{tag}");
        let name = tag.split([' ', '\n']).next().unwrap();
        match name.strip_prefix('/') {
            Some(name) => assert_eq!(open.pop(), Some(name)),
            None if tag.ends_with('/') => {}
            None => open.push(name),
        }
    }
    assert!(open.is_empty() && rest == "\n");
}

fn times(svg: &str, part: &str) -> usize {
    svg.matches(part).count()
}

/// Whether the picture says what the plain implementation's report on the same files says.
fn assert_agrees([journal, table, bad]: [&[u8]; 3]) {
    let svg = picture(journal, table, bad);
    assert_well_formed(&svg);
    let report = String::from_utf8(plain::report(journal, table, bad)).unwrap();
    if let Some(refusal) = report.strip_prefix("REFUSED ") {
        let reason = format!("REFUSED {}: ", refusal.trim_end());
        assert_eq!(times(&svg, &reason), 1, "{reason}");
        assert_eq!(times(&svg, "class=\"feeds"), 0);
        assert_eq!(times(&svg, "class=\"sale goes"), 0);
        return;
    }
    let end = report.lines().last().unwrap().strip_prefix("END ").unwrap();
    let counts: Vec<usize> = end.split(' ').map(|count| count.parse().unwrap()).collect();
    let [kept, back, dropped] = counts[..] else {
        panic!("{report}");
    };
    let fed = plain::removal(journal, &[]);
    let fed = fed.iter().filter(|(_, write)| write.is_some()).count();
    let found =
        ["goes", "stays", "dropped"].map(|fate| times(&svg, &format!("class=\"sale {fate}")));
    let arrows = times(&svg, "class=\"feeds");
    if svg.contains("The whole day") {
        // What goes is drawn a second time.
        let drawn = back + back.min(1)..=back + back.min(30);
        assert!(drawn.contains(&found[0]), "{} of {back}", found[0]);
        assert_eq!(found[1..], [kept, dropped]);
        assert!(arrows >= fed);
    } else {
        assert_eq!(found, [back, kept, dropped]);
        assert_eq!(arrows, fed);
    }
    for line in report.lines() {
        if let Some(sale) = line.strip_prefix("BACK ") {
            let told = [": taken back", ", listed as bad: taken back"];
            assert!(told
                .iter()
                .any(|told| svg.contains(&format!("<title>sale {sale}{told}</title>"))));
        }
    }
}

#[test]
fn the_shown_example_is_made_by_this() {
    let [journal, table, bad] = files(&root().join("crates/takeback/data"));
    let shown = fs::read_to_string(root().join("docs/example.svg")).unwrap();
    assert!(
        picture(&journal, &table, &bad) == shown,
        "docs/example.svg: ./picture makes another one"
    );
}

#[test]
fn the_shown_layers_are_those_of_crates_txt() {
    let text = fs::read_to_string(root().join("crates.txt")).unwrap();
    let svg = picture::layers(&text);
    assert_well_formed(&svg);
    let shown = fs::read_to_string(root().join("docs/layers.svg")).unwrap();
    let how = "'./picture --layers >docs/layers.svg' makes it anew";
    assert!(svg == shown, "docs/layers.svg shows other layers: {how}");
    // Each crate has a word on what it holds.
    assert_eq!(times(&svg, "fill=\"#444\"></text>"), 0);
}

#[test]
fn the_days_by_hand() {
    let mut tried = 0;
    for folder in fs::read_dir(root().join("crates/day_folders/data")).unwrap() {
        let [journal, table, bad] = files(&folder.unwrap().path());
        assert_agrees([&journal, &table, &bad]);
        tried += 1;
    }
    assert!(tried > 80);
}

#[test]
fn random_and_damaged_days() {
    for seed in 0..scaled(1_000) {
        let day = day(seed);
        assert_agrees([&day.journal, &day.table_file, &day.bad_file]);
    }
}

/// A day of so many sales, each of which reads and writes the item of its number modulo `items`.
fn in_turn(sales: u16, items: u32, bad: u16) -> [Vec<u8>; 3] {
    use plain::format::{encode_all, next_link, Record, COMMIT, READ, WRITE};
    let mut table = vec![0; items as usize];
    let mut records = vec![Record::head(3 * u32::from(sales), items)];
    for transaction in 1..=sales {
        let item = u32::from(transaction) % items;
        let amount = &mut table[item as usize];
        let before = std::mem::replace(amount, i32::from(transaction));
        for (kind, item, before, after) in [
            (READ, item, 0, 0),
            (WRITE, item, before, *amount),
            (COMMIT, 0, 0, 0),
        ] {
            records.push(Record {
                kind,
                transaction,
                item,
                before,
                after,
                ..Record::default()
            });
        }
    }
    for record in 1..records.len() {
        records[record].next = next_link(&records, record);
    }
    let table = table
        .iter()
        .flat_map(|amount| amount.to_le_bytes())
        .collect();
    [encode_all(&records), table, bad.to_le_bytes().to_vec()]
}

#[test]
fn many_sales() {
    for (sales, items) in [
        (16, 1),
        (17, 1),
        (60, 3),
        (1_024, 1),
        (1_024, 100),
        (1_024, 1_024),
    ] {
        let [journal, table, bad] = in_turn(sales, items, 5);
        assert_agrees([&journal, &table, &bad]);
    }
}
