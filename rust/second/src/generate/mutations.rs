//! Small changes to the records of a valid table, and tables that break a chosen rule by them.

use super::changes::*;
use super::random::Random;
use super::unit::{raw_records, valid_table, RawRecords};
use crate::rules::check;

/// A table that the check refuses by this number (or, after many tries, any changed table).
pub fn table_refused_by(random: &mut Random, number: u16) -> Vec<u8> {
    let mut changed = Vec::new();
    for _ in 0..6 {
        let base = raw_records(&valid_table(random));
        for _ in 0..40 {
            let mut records = base.clone();
            for _ in 0..1 + random.below(2) {
                mutate(random, &mut records);
            }
            changed = records.concat();
            if refused_by(&changed, number) {
                return with_more_faults(random, records, number);
            }
        }
    }
    changed
}

fn refused_by(table: &[u8], number: u16) -> bool {
    check(table).is_err_and(|refusal| refusal.number == number)
}

/// Often more changes that leave the number as it is: several records at fault, of which one
/// is the first.
fn with_more_faults(random: &mut Random, mut records: RawRecords, number: u16) -> Vec<u8> {
    for _ in 0..*random.pick(&[0, 0, 4, 12]) {
        let mut more = records.clone();
        mutate(random, &mut more);
        if refused_by(&more.concat(), number) {
            records = more;
        }
    }
    records.concat()
}

/// A table with several changes at once.
pub fn table_changed(random: &mut Random, changes: usize) -> Vec<u8> {
    let mut records = raw_records(&valid_table(random));
    for _ in 0..changes {
        mutate(random, &mut records);
    }
    records.concat()
}

pub fn mutate(random: &mut Random, records: &mut RawRecords) {
    if records.is_empty() {
        return;
    }
    let at = random.below(records.len());
    match random.below(15) {
        0 | 1 => change_letter(random, &mut records[at]),
        2 | 3 => change_number(random, records, at),
        4 => drop(records.remove(at)),
        5 => {
            let place = random.below(records.len() + 1);
            records.insert(if random.chance(50) { at } else { place }, records[at].clone());
        }
        6 => {
            let other = if random.chance(60) { at + 1 } else { random.below(records.len()) };
            let other = other.min(records.len() - 1);
            records.swap(at, other);
        }
        7 => twin_mark(&mut records[at]),
        8 => {
            let record = records.remove(at);
            records.insert(random.below(records.len() + 1), record);
        }
        9 => insert_record(random, records, at),
        10 => spoil_text(random, records, at),
        11 | 12 => change_letter_of_id(random, records, at),
        13 => insert_half_of_id(random, records, at),
        _ => change_class_of_id(random, records, at),
    }
}
