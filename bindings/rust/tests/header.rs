//! The C header and the proved code have the names and numbers of this crate.

use journal::{kind, status, Reason, Refusal};
use std::fs;

/// A file of the repository.
fn text(path: &str) -> String {
    fs::read_to_string(format!("{}/../../{path}", env!("CARGO_MANIFEST_DIR"))).unwrap()
}

/// `BeforeImage` as `BEFORE_IMAGE`.
fn constant(name: &str) -> String {
    let mut constant = String::new();
    for (at, letter) in name.char_indices() {
        if at > 0 && letter.is_uppercase() {
            constant.push('_');
        }
        constant.push(letter.to_ascii_uppercase());
    }
    constant
}

/// The words of a C text: names, numbers and quoted words, one space between any two.
fn squeezed(header: &str) -> String {
    let apart = |c: char| c.is_whitespace() || c == ',';
    let words: Vec<&str> = header
        .split(apart)
        .filter(|word| !word.is_empty())
        .collect();
    format!(" {} ", words.join(" "))
}

#[test]
fn the_header_has_each_reason() {
    let header = squeezed(&text("bindings/c/journal.h"));
    for reason in Reason::ALL {
        let name = format!("JOURNAL_REASON_{}", constant(&format!("{reason:?}")));
        let (number, word) = (reason.number(), reason.word());
        for part in [
            format!(" {name} = {number} /* {word}: "),
            format!(" case {name}: return \"{word}\"; "),
        ] {
            assert!(header.contains(&part), "not in journal.h: {part}");
        }
    }
}

#[test]
fn the_header_has_each_place() {
    let header = squeezed(&text("bindings/c/journal.h"));
    let (_, switch) = header
        .split_once(" *journal_place_word(uint32_t number) ")
        .unwrap();
    let (switch, _) = switch.split_once(" default: ").unwrap();
    let mut rest = switch.to_string();
    for reason in Reason::ALL {
        let shown = Refusal::new(reason.number(), 7).to_string();
        let word = shown
            .split_once(", ")
            .map(|(_, place)| place.trim_end_matches(" 7"));
        let case = format!(
            " case JOURNAL_REASON_{}: ",
            constant(&format!("{reason:?}"))
        );
        assert_eq!(rest.contains(&case), word.is_some(), "{case}");
        // A case falls through to the next that returns.
        if let Some(word) = word {
            let (_, after) = rest.split_once(&case).unwrap();
            let (_, returned) = after.split_once("return ").unwrap();
            assert!(returned.starts_with(&format!("\"{word}\"")), "{case}");
            rest = format!(" {}", after.trim_start());
        }
    }
}

#[test]
fn the_header_has_each_limit_and_kind() {
    let header = squeezed(&text("bindings/c/journal.h"));
    for (name, value) in [
        ("RECORD_BYTES", journal::RECORD_BYTES),
        ("MAX_RECORDS", journal::MAX_RECORDS),
        ("MAX_BYTES", journal::MAX_BYTES),
        ("MAX_ITEMS", journal::MAX_ITEMS),
        ("MAX_TRANSACTION", journal::MAX_TRANSACTION.into()),
        ("STATUS_BYTES", journal::STATUS_BYTES),
    ] {
        let part = format!(" #define JOURNAL_{name} {value} ");
        assert!(header.contains(&part), "not in journal.h: {part}");
    }
    for (name, value) in [
        ("KIND_READ", kind::READ),
        ("KIND_WRITE", kind::WRITE),
        ("KIND_COMMIT", kind::COMMIT),
        ("KIND_ABORT", kind::ABORT),
        ("STATUS_NOT_COMMITTED", status::NOT_COMMITTED),
        ("STATUS_SURVIVING", status::SURVIVING),
        ("STATUS_UNDONE", status::UNDONE),
    ] {
        let part = format!(" JOURNAL_{name} = {value} ");
        assert!(header.contains(&part), "not in journal.h: {part}");
    }
}

/// The number of the interface, in header, binding and archive.
#[test]
fn the_interface_has_one_number() {
    let header = squeezed(&text("bindings/c/journal.h"));
    let number = journal::INTERFACE;
    let function = format!("journal_interface_{number}(void);");
    for part in [
        format!(" #define JOURNAL_INTERFACE {number} "),
        format!(" uint32_t {function} "),
    ] {
        assert!(header.contains(&part), "not in journal.h: {part}");
    }
    // SAFETY: the function takes and touches nothing.
    let archive = unsafe { journal::raw::journal_interface_1() };
    assert_eq!(archive, number);
}

/// Each call of the library is one of `ask`, which calls the function of the interface's number.
#[test]
fn each_function_asks_for_the_interface() {
    let binding = text("bindings/rust/src/lib.rs");
    let calls = binding.matches("raw::journal_").count();
    let asked = binding.matches("ask(|answer| ").count();
    assert_eq!((calls, asked), (7, 6));
}

#[test]
fn the_proved_code_has_the_same_reasons() {
    let code = text("crates/journal/src/lib.rt");
    let (_, cases) = code.split_once("pub enum Reason {").unwrap();
    let (cases, _) = cases.split_once('}').unwrap();
    let names: Vec<&str> = cases
        .lines()
        .filter_map(|line| line.trim().split(['(', ',']).next())
        .filter(|name| !name.is_empty())
        .collect();
    let ours: Vec<String> = Reason::ALL.iter().map(|r| format!("{r:?}")).collect();
    assert_eq!(names, ours);
}
