//! "**Set target** (part, state, content)." With order 4 of document 02, "Marker chains may change
//! places".

use super::chains::rearranged;
use super::content::codes;
use super::{hand_out, Outcome};
use crate::record::Code;
use crate::rules::{check, first_fault};
use crate::table::{read_content, Part, PartKind, Placed, Target, Unit};
use crate::Refusal;

pub fn set_target(table: &[u8], part: u16, state: u8, content: &[u8], room: usize) -> Outcome {
    let unit = check(table)?;
    let refuse = |number| Err(Refusal::without_place(number));
    // "11."
    let Some(old) = unit.part(part) else {
        return refuse(11);
    };
    if !state_fits(old, state) {
        return refuse(2);
    }
    // "Then 4, 2, 3, place in the content."
    let new = read_content(content)?;
    // "of the old target, or of the part's source if there was none".
    let before = old.target.as_ref().map_or(&old.source, |target| &target.content);
    if !keeps_non_removable(before, &new) {
        return refuse(18);
    }
    // "Refusal 19 now comes exactly when the new list is not a rearrangement of the old list's
    // whole chains, each in its own order."
    if !rearranged(before, &new) {
        return refuse(19);
    }
    let order = new_order(&unit, part);
    let mut result = unit.clone();
    let set = &mut result.parts[part as usize - 1];
    set.target = Some(Target { offset: 0, order, content: new });
    if let PartKind::Segment { state: old_state, .. } = &mut set.kind {
        *old_state = state;
    }
    // "15. Then 6 to 10 of the result."
    let out = hand_out(&result, room)?;
    match first_fault(&result, &[6, 7, 8, 9, 10]) {
        Some(fault) => refuse(fault.number),
        None => Ok(out),
    }
}

/// "2: state unfit (- for an ignorable, else I T R F)."
fn state_fits(part: &Part, state: u8) -> bool {
    match part.kind {
        PartKind::Ignorable => state == b'-',
        PartKind::Segment { .. } => b"ITRF".contains(&state),
    }
}

/// "18: a half or code with canDelete N of the old target, or of the part's source if there
/// was none, is not in the new content with every field equal (marks compared as when
/// flattened)."
fn keeps_non_removable(before: &[Placed], new: &[Placed]) -> bool {
    codes(before)
        .filter(|code| code.can_delete == b'N')
        .all(|code| codes(new).any(|other| flattened(other) == flattened(code)))
}

/// "`PO` and `SC` counted alike, so `PC` and `EC`".
fn flattened(code: &Code) -> Code {
    let mark = match &code.mark {
        b"PO" => *b"SC",
        b"PC" => *b"EC",
        _ => code.mark,
    };
    Code { mark, ..code.clone() }
}

/// "Order: the old one, else the part's position if unused, else the lowest unused."
fn new_order(unit: &Unit, part: u16) -> u16 {
    if let Some(target) = unit.part(part).and_then(|old| old.target.as_ref()) {
        return target.order;
    }
    let used: Vec<u16> =
        unit.parts.iter().filter_map(|p| p.target.as_ref()).map(|t| t.order).collect();
    let mut wanted = std::iter::once(part).chain(1..=unit.parts.len() as u16);
    let order = wanted.find(|value| !used.contains(value));
    order.expect("a part without target leaves a value unused")
}
