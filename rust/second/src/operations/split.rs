//! "**Split** (part, source cut, target cut, new id; parts count from 1)." With order 2 of document
//! 02, "Accents stay with their letters".

use super::content::{gather, is_accent, items};
use super::{hand_out, Outcome};
use crate::record::{Inline, Mark};
use crate::rules::check;
use crate::rules::partners::partners_in_content;
use crate::table::{Part, Placed, Target, Unit};
use crate::Refusal;

pub fn split(
    table: &[u8],
    part: u16,
    source_cut: u16,
    target_cut: u16,
    new_id: u16,
    room: usize,
) -> Outcome {
    let unit = check(table)?;
    let refuse = |number| Err(Refusal::without_place(number));
    // "11: no such part."
    let Some(old) = unit.part(part) else {
        return refuse(11);
    };
    // "12: canResegment resolves to N."
    if unit.is_closed(old) {
        return refuse(12);
    }
    if !cuts_fit(old, source_cut as usize, target_cut as usize) {
        return refuse(13);
    }
    // "Answers: 23, in split after 13 and before 14."
    if accent_parted(old, source_cut as usize, target_cut as usize) {
        return refuse(23);
    }
    // "14: new id not 0 and already the id of a part or inline record of the unit."
    if new_id != 0 && has_id(&unit, new_id) {
        return refuse(14);
    }
    let (first, second) = halves(old, source_cut as usize, target_cut as usize, new_id);
    let mut result = unit.clone();
    if let Some(target) = &old.target {
        raise_orders(&mut result, target.order);
    }
    // "The second half is written directly behind the first."
    let position = part as usize - 1;
    result.parts.splice(position..=position, [first, second]);
    hand_out(&result, room)
}

/// "13: source cut not in 1 to items - 1, or target cut above the target's items (without
/// target it must be 0)."
fn cuts_fit(part: &Part, source_cut: usize, target_cut: usize) -> bool {
    let target_items = part.target.as_ref().map_or(0, |target| items(&target.content).len());
    source_cut >= 1 && source_cut < items(&part.source).len() && target_cut <= target_items
}

/// "A cut is refused, in source or target, if the item after it is such a mark and the item before
/// it is a code point of text."
fn accent_parted(part: &Part, source_cut: usize, target_cut: usize) -> bool {
    let parted = |content: &[Placed], cut: usize| {
        let items = items(content);
        let (before, after) = items.split_at(cut);
        matches!(before.last(), Some(Inline::Text(_))) && after.first().is_some_and(is_accent)
    };
    let in_target = |target: &Target| parted(&target.content, target_cut);
    parted(&part.source, source_cut) || part.target.as_ref().is_some_and(in_target)
}

fn has_id(unit: &Unit, id: u16) -> bool {
    let in_content =
        |content: &[Placed]| content.iter().any(|placed| placed.inline.id() == Some(id));
    unit.parts.iter().any(|part| {
        part.id == id
            || in_content(&part.source)
            || part.target.as_ref().is_some_and(|target| in_content(&target.content))
    })
}

/// "The target's order q becomes q and q + 1, other orders above q rise by 1; without target,
/// orders stay."
fn raise_orders(unit: &mut Unit, above: u16) {
    for target in unit.parts.iter_mut().filter_map(|p| p.target.as_mut()) {
        target.order += u16::from(target.order > above);
    }
}

/// "The first half keeps the id; the other fields are copied."
fn halves(old: &Part, source_cut: usize, target_cut: usize, new_id: u16) -> (Part, Part) {
    let (mut first, mut second) = (old.clone(), old.clone());
    second.id = new_id;
    (first.source, second.source) = cut(&old.source, source_cut);
    if let Some(target) = &old.target {
        let (before, after) = cut(&target.content, target_cut);
        first.target = Some(Target { offset: 0, order: target.order, content: before });
        second.target = Some(Target { offset: 0, order: target.order + 1, content: after });
    }
    (first, second)
}

/// "Every pc or mrk open at a cut turns to start and end marks with equal fields."
fn cut(content: &[Placed], at: usize) -> (Vec<Placed>, Vec<Placed>) {
    let mut items = items(content);
    let found = partners_in_content(&items.iter().collect::<Vec<_>>());
    for (position, partner) in found.into_iter().enumerate() {
        if let Some(end) = partner.filter(|&end| position < at && at <= end) {
            start_and_end(&mut items[position]);
            start_and_end(&mut items[end]);
        }
    }
    let after = items.split_off(at);
    (gather(items), gather(after))
}

/// Start and end marks in place of those of pc or mrk; all else stays.
pub fn start_and_end(half: &mut Inline) {
    match half {
        Inline::Code(code) => code.mark = start_or_end(code.mark),
        Inline::Annotation(annotation) => annotation.mark = start_or_end(annotation.mark),
        _ => {}
    }
}

fn start_or_end(mark: Mark) -> Mark {
    match &mark {
        b"PO" => *b"SC",
        b"PC" => *b"EC",
        b"MO" => *b"SM",
        b"MC" => *b"EM",
        _ => mark,
    }
}
