//! docs/FORMAT.md has the bytes of the example day, its report, and each refusal.

use journal::{Place, Reason, Refusal};
use std::fs;

/// A file of the repository.
fn file(path: &str) -> Vec<u8> {
    fs::read(format!("{}/../../{path}", env!("CARGO_MANIFEST_DIR"))).unwrap()
}

fn format() -> String {
    String::from_utf8(file("docs/FORMAT.md")).unwrap()
}

/// The bytes at the front of a text in hexadecimal, up to a word that is none.
fn bytes(text: &str) -> Vec<u8> {
    let two = |word: &&str| word.len() == 2;
    let words = text.split_whitespace().take_while(two);
    words
        .map_while(|word| u8::from_str_radix(word, 16).ok())
        .collect()
}

/// What stands behind this word at the front of a line.
fn line_of<'a>(text: &'a str, word: &str) -> &'a str {
    let mut lines = text.lines().filter_map(|line| line.strip_prefix(word));
    lines.next().unwrap_or_else(|| panic!("no line {word}"))
}

#[test]
fn the_example_is_to_the_byte() {
    let text = format();
    let journal: Vec<u8> = (0..12)
        .flat_map(|record| bytes(line_of(&text, &format!("{record:>2}  "))))
        .collect();
    assert_eq!(journal, file("crates/takeback/data/journal.bin"));
    for (word, path) in [("table  ", "table.bin"), ("bad    ", "bad.bin")] {
        let path = format!("crates/takeback/data/{path}");
        assert_eq!(bytes(line_of(&text, word)), file(&path));
    }
}

#[test]
fn the_report_is_the_programs() {
    let report = String::from_utf8(file("crates/takeback/stdout")).unwrap();
    assert!(format().contains(&format!("```\n{report}```\n")));
}

#[test]
fn each_refusal_has_its_row() {
    let text = format();
    for reason in Reason::ALL {
        let (number, word) = (reason.number(), reason.word());
        let row = line_of(&text, &format!("| {number} | {word} | "));
        let cells: Vec<&str> = row.trim_end_matches(" |").split(" | ").collect();
        let [_, place, in_c, in_rust, variant] = cells[..] else {
            panic!("{row}");
        };
        let has = match Refusal::new(number, 0).place {
            Place::None => ("0", "None"),
            Place::Record(_) => ("record", "Record"),
            Place::Item(_) => ("lowest such item", "Item"),
            Place::Transaction(_) => ("lowest such sale", "Transaction"),
            _ => (
                "lowest position in the list, from 0; in slip 0",
                "Position; in slip None",
            ),
        };
        assert_eq!((place, variant), has);
        assert_eq!(in_rust, format!("{reason:?}"));
        assert_eq!(in_c.replace('_', ""), in_rust.to_uppercase());
    }
}

/// The text without spaces, line ends, comments and attributes, and without a comma before a closing
/// bracket.
fn squeezed(text: &str) -> String {
    let code = |line: &str| line.split("//").next().unwrap().to_string() + "\n";
    let lines = text.lines().filter(|line| !line.trim().starts_with("#["));
    let code: String = lines.map(code).collect();
    let words: String = code.split_whitespace().collect();
    words.replace(",)", ")").replace(",}", "}")
}

/// The declarations in a block of this language: the first has the calls, the second their types.
fn declared(language: &str, block: usize, ending: &str) -> Vec<String> {
    let text = format();
    let opening = format!("```{language}\n");
    let block = text.split(&opening).nth(1 + block).unwrap();
    let (block, _) = block.split_once("```").unwrap();
    let parts = block.split(ending).map(squeezed);
    parts.filter(|part| !part.is_empty()).collect()
}

fn header() -> String {
    squeezed(&String::from_utf8(file("bindings/c/journal.h")).unwrap())
}

/// The binding's sources.
fn binding() -> String {
    let names = ["lib.rs", "numbers.rs", "record.rs", "refusal.rs"];
    let sources = names.map(|name| file(&format!("bindings/rust/src/{name}")));
    String::from_utf8(sources.concat()).unwrap()
}

#[test]
fn the_types_are_those_of_header_and_binding() {
    let header = header();
    let in_c = declared("c", 1, "};");
    assert_eq!(in_c.len(), 2);
    for kind in in_c {
        assert!(header.contains(&(kind.clone() + "};")), "{kind}");
    }
    let binding = squeezed(&binding().replace("pub ", ""));
    let in_rust = declared("rust", 1, "\n");
    assert_eq!(in_rust.len(), 9);
    for kind in in_rust {
        assert!(binding.contains(&kind), "not in the binding: {kind}");
    }
}

#[test]
fn the_calls_are_those_of_header_and_binding() {
    let header = header();
    let in_c = declared("c", 0, ";");
    assert_eq!(in_c.len(), 10);
    for call in in_c {
        assert!(header.contains(&call), "not in journal.h: {call}");
    }
    let binding = squeezed(&binding());
    let in_rust = declared("rust", 0, "pub fn ");
    assert_eq!(in_rust.len(), 9);
    for call in in_rust {
        assert!(
            binding.contains(&format!("pubfn{call}{{")),
            "not in the binding: {call}"
        );
    }
}

#[test]
fn each_limit_has_its_row() {
    let text = format();
    let (_, text) = text.split_once("\n## Limits\n").unwrap();
    let number = |cell: &str| cell.replace(',', "").parse::<usize>().unwrap();
    for (what, highest) in [
        ("records of a journal", journal::MAX_RECORDS),
        ("bytes of a journal", journal::MAX_BYTES),
        ("items", journal::MAX_ITEMS),
        ("sale number", journal::MAX_TRANSACTION.into()),
    ] {
        let row = line_of(text, &format!("| {what} | "));
        let (_, cell) = row.trim_end_matches(" |").split_once(" | ").unwrap();
        assert_eq!(number(cell), highest);
    }
}

#[test]
fn the_stack_of_each_call_is_the_headers() {
    let (text, header) = (
        format(),
        String::from_utf8(file("bindings/c/journal.h")).unwrap(),
    );
    for (calls, names) in [
        ("start, count", &["START", "COUNT_RECORDS"][..]),
        ("post, check, slip", &["APPEND", "CHECK", "CHAIN"]),
        ("take-back", &["UNDO"]),
    ] {
        let bytes = line_of(&text, &format!("| {calls} | ")).trim_end_matches(" |");
        for name in names {
            let line = line_of(&header, &format!("#define JOURNAL_STACK_{name} "));
            assert_eq!(line, bytes.replace(',', ""));
        }
    }
}
