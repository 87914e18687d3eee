//! Tables for calls with a grant.

use super::rewrites::found;
use crate::generate::limits::{many_parts, many_records};
use crate::generate::mutations::table_refused_by;
use crate::generate::random::Random;
use crate::generate::unit::{valid_table, valid_table_of};
use crate::rules::check;
use crate::MOST_BYTES;

const TRIES: usize = 6;

/// A valid table of several parts, most often with a pair or annotation that stands in two of them,
/// on a side that is drawn first.
pub fn table_of_pairs(random: &mut Random) -> Vec<u8> {
    let side = random.letter(b"STT");
    let mut table = Vec::new();
    for _ in 0..TRIES {
        let parts = 2 + random.below(5);
        table = valid_table_of(random, parts);
        let unit = check(&table).expect("a valid table");
        if found(&unit).iter().any(|found| found.side == side && found.is_in_two_parts()) {
            break;
        }
    }
    table
}

/// A table that the check refuses, by each of its numbers; by 9 it does not always come about.
pub fn refused_table(random: &mut Random) -> Vec<u8> {
    match *random.pick(&[1, 2, 3, 4, 5, 6, 7, 8, 9, 9, 10]) {
        1 => {
            let mut table = valid_table(random);
            table.resize(MOST_BYTES + 1 + random.below(20), b'x');
            table
        }
        4 => loop {
            let many_parts = random.chance(50).then(|| many_parts(random));
            let table = many_parts.unwrap_or_else(|| many_records(random));
            if check(&table).is_err_and(|refusal| refusal.number == 4) {
                return table;
            }
        },
        number => table_refused_by(random, number),
    }
}
