//! Each refusal displays document 01's word, and the place where its number has one.

use journal::{chain, start, Item, Lsn, Place, Reason, Refusal, Transaction};

/// Number, word, and the column "place given" where the place is 7; in the others it is 0.
const TABLE: [(u32, &str, Place); 15] = [
    (1, "torn", Place::None),
    (2, "head", Place::None),
    (3, "table", Place::None),
    (4, "smudge", Place::Record(Lsn(7))),
    (5, "chain", Place::Record(Lsn(7))),
    (6, "closed", Place::Record(Lsn(7))),
    (7, "crossed", Place::Record(Lsn(7))),
    (8, "blind", Place::Record(Lsn(7))),
    (9, "before", Place::Record(Lsn(7))),
    (10, "close", Place::Item(Item(7))),
    (11, "open", Place::Transaction(Transaction(7))),
    (12, "unknown", Place::Position(7)),
    (13, "marks", Place::None),
    (14, "paper", Place::None),
    (15, "tally", Place::None),
];

#[test]
fn each_number_displays_its_word_and_place() {
    for (number, word, place) in TABLE {
        let refusal = Refusal::new(number, place.number());
        assert_eq!(refusal.place, place);
        let expected = match place {
            Place::None => word.to_string(),
            Place::Record(_) => format!("{word}, record 7"),
            Place::Item(_) => format!("{word}, item 7"),
            Place::Transaction(_) => format!("{word}, sale 7"),
            _ => format!("{word}, position 7"),
        };
        assert_eq!(refusal.to_string(), expected);
        assert_eq!(format!("{refusal:?}"), format!("{expected} ({number})"));
    }
}

#[test]
fn each_number_has_its_reason() {
    let numbers: Vec<u32> = Reason::ALL.iter().map(|reason| reason.number()).collect();
    assert_eq!(numbers, TABLE.map(|row| row.0));
    for (number, word, _) in TABLE {
        let reason = Refusal::new(number, 0).reason().unwrap();
        assert_eq!((reason.number(), reason.word()), (number, word));
    }
}

#[test]
fn a_number_that_no_call_returns_has_no_reason() {
    for number in [0, 16, u32::MAX] {
        let refusal = Refusal::new(number, 3);
        assert_eq!(refusal.reason(), None);
        assert_eq!(refusal.place, Place::Other(3));
        assert_eq!(refusal.to_string(), format!("number {number}, place 3"));
    }
}

#[test]
fn a_slip_of_no_sale_has_no_position() {
    let mut journal = [0; 20];
    start(&mut journal, 1).unwrap();
    let refusal = chain(&journal, Transaction(1), &mut []).unwrap_err();
    assert_eq!((refusal.number, refusal.place), (12, Place::None));
    assert_eq!(refusal.to_string(), "unknown");
}

#[test]
fn a_refusal_is_an_error() {
    let error: Box<dyn std::error::Error> = Box::new(Refusal::new(11, 2));
    assert_eq!(error.to_string(), "open, sale 2");
}
