//! The check: the table's form (numbers 1 to 4), then rules 5 to 10 in turn. Each rule gives
//! the offset of the first record at fault, by offset over both sides together.

mod codes;
mod ids;
pub mod partners;
pub mod sequence;

use crate::table::{read_table, Unit};
use crate::Refusal;

pub use codes::{close_letter, rule_10, rule_8, rule_9};
pub use ids::{rule_5, rule_6, rule_7};

/// "**Check.**": the unit if none of 1 to 10 applies, else number and place.
pub fn check(table: &[u8]) -> Result<Unit, Refusal> {
    let unit = read_table(table)?;
    match first_fault(&unit, &[5, 6, 7, 8, 9, 10]) {
        Some(refusal) => Err(refusal),
        None => Ok(unit),
    }
}

/// The first of these rules that the unit breaks, with the record at fault.
pub fn first_fault(unit: &Unit, numbers: &[u16]) -> Option<Refusal> {
    numbers.iter().find_map(|&number| {
        let fault = match number {
            5 => rule_5(unit),
            6 => rule_6(unit),
            7 => rule_7(unit),
            8 => rule_8(unit),
            9 => rule_9(unit),
            _ => rule_10(unit),
        };
        fault.map(|place| Refusal { number, place })
    })
}
