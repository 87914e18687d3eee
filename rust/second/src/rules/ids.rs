//! Rules 5 to 7: orders, ids and partners.

use std::collections::HashSet;

use super::partners::partners;
use super::sequence::{source_sequence, target_sequence, Standing};
use crate::record::Half;
use crate::table::{Placed, Unit};

/// "5: a `TG` order not in 1 to the number of parts, or used earlier."
pub fn rule_5(unit: &Unit) -> Option<usize> {
    let mut used = HashSet::new();
    unit.parts.iter().filter_map(|part| part.target.as_ref()).find_map(|target| {
        let in_range = (1..=unit.parts.len()).contains(&(target.order as usize));
        (!in_range || !used.insert(target.order)).then_some(target.offset)
    })
}

/// "6: an id met earlier. Source starts and part ids all differ; target starts differ from
/// each other and from part ids." A part id of 0 is none.
pub fn rule_6(unit: &Unit) -> Option<usize> {
    let (mut parts, mut source, mut target) = (HashSet::new(), HashSet::new(), HashSet::new());
    for part in &unit.parts {
        let met = source.contains(&part.id) || target.contains(&part.id);
        if part.id != 0 && (!parts.insert(part.id) || met) {
            return Some(part.offset);
        }
        if let Some(offset) = first_met(&part.source, &parts, &mut source) {
            return Some(offset);
        }
        let content = part.target.iter().flat_map(|t| &t.content);
        if let Some(offset) = first_met(content, &parts, &mut target) {
            return Some(offset);
        }
    }
    None
}

/// The first start whose id is a part's or was met on its own side.
fn first_met<'a>(
    content: impl IntoIterator<Item = &'a Placed>,
    parts: &HashSet<u16>,
    side: &mut HashSet<u16>,
) -> Option<usize> {
    content.into_iter().filter(|placed| placed.inline.is_start()).find_map(|placed| {
        let id = placed.inline.id()?;
        (parts.contains(&id) || !side.insert(id)).then_some(placed.offset)
    })
}

/// "7: a half without partner."
pub fn rule_7(unit: &Unit) -> Option<usize> {
    let (source, target) = (source_sequence(unit), target_sequence(unit));
    let (in_source, in_target) = (partners(&source), partners(&target));
    let is_half = |standing: &Standing| standing.inline.half().is_some();
    let source_faults = (0..source.len())
        .filter(|&i| is_half(&source[i]) && in_source[i].is_none())
        .map(|i| source[i].offset);
    let target_faults = (0..target.len())
        .filter(|&i| is_half(&target[i]) && in_target[i].is_none())
        .filter(|&i| !waits(unit, &source, &in_source, &target, &target[i]))
        .map(|i| target[i].offset);
    source_faults.chain(target_faults).min()
}

/// "In targets a lone `SC`, `EC`, `SM` or `EM`, the only half of its id there, passes if the
/// source has a pair or annotation of that id and class whose other half is in a part without
/// target."
fn waits(
    unit: &Unit,
    source: &[Standing],
    in_source: &[Option<usize>],
    target: &[Standing],
    lone: &Standing,
) -> bool {
    let lone_mark =
        matches!(lone.inline.mark(), Some(b"SC") | Some(b"EC") | Some(b"SM") | Some(b"EM"));
    let halves_of_id = target
        .iter()
        .filter(|other| other.inline.half().is_some() && other.inline.id() == lone.inline.id());
    let other_half = match lone.inline.half() {
        Some(Half::Start) => Half::End,
        _ => Half::Start,
    };
    let waiting = (0..source.len()).any(|i| {
        source[i].inline.id() == lone.inline.id()
            && source[i].inline.class() == lone.inline.class()
            && source[i].inline.half() == Some(other_half)
            && in_source[i].is_some()
            && unit.parts[source[i].part].target.is_none()
    });
    lone_mark && halves_of_id.count() == 1 && waiting
}
