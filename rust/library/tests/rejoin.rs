//! Order 11 of document 02: lists of splits undone in reverse sequence, each by its join with an
//! output just as long as the table that the split was given; and 15 with one byte less.

use second::generate::splits_undone;
use second::rejoin::{Split, Undoing};
use xliff_desk::{Reason, Refusal};

const SEED: u64 = 3;
const LISTS: u64 = 2000;

/// What the output holds before a call.
const NO_TABLE: u8 = 0xA5;

#[test]
fn splits_are_undone_with_output_just_enough() {
    for number in 0..LISTS {
        let list = splits_undone(SEED, number);
        let context = format!("list {number} of seed {SEED}");
        let left = run_splits(&list, &context);
        run_joins(&list, left, &context);
    }
}

/// The table that all splits leave.
fn run_splits(list: &Undoing, context: &str) -> Vec<u8> {
    let mut table = list.original().to_vec();
    for (Split { part, source_cut, target_cut, new_id }, given) in list.steps() {
        assert_eq!(table, given, "{context}");
        let mut out = vec![NO_TABLE; second::MOST_BYTES];
        let answer = xliff_desk::split(&table, part, source_cut, target_cut, new_id, &mut out);
        table = out[..answer.expect("an accepted split")].to_vec();
    }
    assert_eq!(table, list.left(), "{context}");
    table
}

/// Each join, first with one byte too few, gives the table that its split was given with the
/// marks turned.
fn run_joins(list: &Undoing, mut table: Vec<u8>, context: &str) {
    let too_large = Err(Refusal { reason: Reason::TooLarge, place: 0 });
    for (place, (Split { part, .. }, given)) in list.steps().enumerate().rev() {
        let mut short = vec![NO_TABLE; given.len() - 1];
        assert_eq!(xliff_desk::join(&table, part, &mut short), too_large, "{context}");
        assert!(short.iter().all(|&byte| byte == NO_TABLE), "{context}");
        let mut out = vec![NO_TABLE; given.len()];
        assert_eq!(xliff_desk::join(&table, part, &mut out), Ok(given.len()), "{context}");
        assert_eq!(out, list.undone(place), "{context}");
        table = out;
    }
}
