//! "**Remove target** (part)."

use super::{hand_out, Outcome};
use crate::rules::{check, first_fault};
use crate::table::PartKind;
use crate::Refusal;

pub fn remove_target(table: &[u8], part: u16, room: usize) -> Outcome {
    let unit = check(table)?;
    let refuse = |number| Err(Refusal::without_place(number));
    // "11."
    let Some(old) = unit.part(part) else {
        return refuse(11);
    };
    // "20: no target."
    if old.target.is_none() {
        return refuse(20);
    }
    let mut result = unit.clone();
    let changed = &mut result.parts[part as usize - 1];
    changed.target = None;
    // "A segment's state becomes I."
    if let PartKind::Segment { state, .. } = &mut changed.kind {
        *state = b'I';
    }
    // "15. Then 7, 9."
    let out = hand_out(&result, room)?;
    match first_fault(&result, &[7, 9]) {
        Some(fault) => refuse(fault.number),
        None => Ok(out),
    }
}
