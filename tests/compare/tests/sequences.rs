//! Calls in turn, each on what the one before left.

use compare::Proved;
use plain::compare::{appends_in_turn, undos_in_turn, Plain};
use plain::days::{appends, undo_sequence};
use plain::run::scaled;

const SEQUENCES: u64 = 1_500;

#[test]
fn appends_in_turn_agree() {
    let sequences = scaled(SEQUENCES);
    let (mut made, mut accepted) = (0, 0);
    for sequence in (0..sequences).map(appends) {
        let found = appends_in_turn(&Proved, &sequence);
        assert_eq!(found, appends_in_turn(&Plain, &sequence));
        made += found.len();
        accepted += found.iter().filter(|step| step.answer.is_ok()).count();
    }
    println!("{sequences} sequences of appends: {made} calls, {accepted} accepted");
    assert!(accepted > made / 10);
}

#[test]
fn undos_in_turn_agree() {
    let sequences = scaled(SEQUENCES);
    let (mut made, mut accepted) = (0, 0);
    for sequence in (0..sequences).map(undo_sequence) {
        let found = undos_in_turn(&Proved, &sequence);
        assert_eq!(found, undos_in_turn(&Plain, &sequence));
        made += found.len();
        accepted += found
            .iter()
            .filter(|step| step.answer.answer.is_ok())
            .count();
    }
    println!("{sequences} sequences of undos: {made} calls, {accepted} accepted");
    assert!(accepted > made / 10);
}
