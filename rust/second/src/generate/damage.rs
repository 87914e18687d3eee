//! Bytes that are no table, or hardly one.

use super::limits::at_limit;
use super::mutations::table_refused_by;
use super::random::Random;
use super::unit::{raw_records, valid_table};
use crate::desk::table_length;

/// A table that the check refuses, mostly by a chosen rule; of those at a limit it accepts some.
pub fn refused_table(random: &mut Random) -> Vec<u8> {
    match random.below(10) {
        0 => damaged(random),
        1 | 2 => {
            let mut job = at_limit(random);
            job.truncate(table_length(&job));
            job
        }
        _ => {
            let number = *random.pick(&[2, 3, 5, 6, 7, 8, 9, 10]);
            table_refused_by(random, number)
        }
    }
}

pub fn damaged(random: &mut Random) -> Vec<u8> {
    let mut table = valid_table(random);
    match random.below(9) {
        0 | 1 => table.truncate(random.below(table.len())),
        2 => {
            let length = random.below(40);
            table = bytes(random, length);
        }
        3 | 4 => flip(random, &mut table),
        5 => {
            // Without its end, the table is the whole input with what comes after.
            table.truncate(table.len() - 2);
            let length = random.below(12);
            table.extend(bytes(random, length));
        }
        6 => table.clear(),
        7 => {
            let mut records = raw_records(&table);
            random.shuffle(&mut records[1..]);
            table = records.concat();
        }
        _ => {
            let place = random.below(table.len());
            let length = 1 + random.below(6);
            let put = bytes(random, length);
            table.splice(place..place, put);
        }
    }
    table
}

pub fn bytes(random: &mut Random, length: usize) -> Vec<u8> {
    (0..length)
        .map(|_| {
            if random.chance(50) {
                random.letter(b"UNESGTXPHOC\0\0\x01")
            } else {
                random.below(256) as u8
            }
        })
        .collect()
}

fn flip(random: &mut Random, table: &mut [u8]) {
    for _ in 0..1 + random.below(3) {
        let place = random.below(table.len());
        table[place] ^= 1 << random.below(8);
    }
}
