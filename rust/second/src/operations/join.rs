//! "**Join** (part, with the next)."

use super::content::{gather, items};
use super::{hand_out, Outcome};
use crate::rules::{check, rule_7};
use crate::table::{Part, PartKind, Placed, Target, Unit};
use crate::Refusal;

pub fn join(table: &[u8], part: u16, room: usize) -> Outcome {
    let unit = check(table)?;
    let refuse = |number| Err(Refusal::without_place(number));
    // "11: either missing."
    let next = part.checked_add(1).and_then(|next| unit.part(next));
    let (Some(first), Some(second)) = (unit.part(part), next) else {
        return refuse(11);
    };
    // "12: either resolves to N."
    if unit.is_closed(first) || unit.is_closed(second) {
        return refuse(12);
    }
    // "16: both have targets and the second order is not the first plus 1."
    if let (Some(one), Some(two)) = (&first.target, &second.target) {
        if two.order != one.order + 1 {
            return refuse(16);
        }
    }
    let mut result = unit.clone();
    let position = part as usize - 1;
    result.parts.splice(position..position + 2, [joined(first, second)]);
    lower_orders(&mut result, orders_fall_above(&unit, first, second));
    // "17: the result breaks rule 7."
    if rule_7(&result).is_some() {
        return refuse(17);
    }
    hand_out(&result, room)
}

/// "With two targets the first order stays and higher ones fall by 1; else orders above the
/// highest unused value fall by 1." The value above which orders fall.
fn orders_fall_above(unit: &Unit, first: &Part, second: &Part) -> u16 {
    if let (Some(one), Some(_)) = (&first.target, &second.target) {
        return one.order;
    }
    let used: Vec<u16> =
        unit.parts.iter().filter_map(|p| p.target.as_ref()).map(|t| t.order).collect();
    let unused = (1..=unit.parts.len() as u16).rev().find(|value| !used.contains(value));
    unused.expect("a part without target leaves a value unused")
}

fn lower_orders(unit: &mut Unit, above: u16) {
    for target in unit.parts.iter_mut().filter_map(|p| p.target.as_mut()) {
        target.order -= u16::from(target.order > above);
    }
}

fn joined(first: &Part, second: &Part) -> Part {
    let (id, kind) = joined_fields(first, second);
    let target = match (&first.target, &second.target) {
        (Some(one), Some(two)) => Some(Target {
            offset: 0,
            order: one.order,
            content: joined_content(&one.content, &two.content),
        }),
        (one, two) => one.clone().or(two.clone()),
    };
    Part { offset: 0, id, kind, source: joined_content(&first.source, &second.source), target }
}

/// "Contents are joined, touching texts become one."
fn joined_content(one: &[Placed], two: &[Placed]) -> Vec<Placed> {
    gather(items(one).into_iter().chain(items(two)))
}

/// "Two ignorables give an ignorable with the first one's id; else the result is a segment
/// with the first segment's id. canResegment is - if every segment joined had -, else Y.
/// State is the earliest, I T R F."
fn joined_fields(first: &Part, second: &Part) -> (u16, PartKind) {
    let rank = |state: u8| b"ITRF".iter().position(|&known| known == state);
    match (first.kind, second.kind) {
        (PartKind::Ignorable, PartKind::Ignorable) => (first.id, PartKind::Ignorable),
        (PartKind::Ignorable, kind) => (second.id, open_kind(kind)),
        (kind, PartKind::Ignorable) => (first.id, open_kind(kind)),
        (
            PartKind::Segment { can_resegment: one, state: first_state },
            PartKind::Segment { can_resegment: two, state: second_state },
        ) => {
            let can_resegment = if (one, two) == (b'-', b'-') { b'-' } else { b'Y' };
            let state =
                if rank(second_state) < rank(first_state) { second_state } else { first_state };
            (first.id, PartKind::Segment { can_resegment, state })
        }
    }
}

/// A lone segment's canResegment: - stays, all else is Y.
fn open_kind(kind: PartKind) -> PartKind {
    match kind {
        PartKind::Segment { can_resegment, state } => {
            let can_resegment = if can_resegment == b'-' { b'-' } else { b'Y' };
            PartKind::Segment { can_resegment, state }
        }
        PartKind::Ignorable => kind,
    }
}
