//! The order's words once more, over a table's bytes and records: which call is granted, and what
//! the view is.

use second::desk::Request;
use second::record::record_length;
use second::table::{Placed, Unit};

/// Whether a part's position stands in the grant; an engineer's grant is not asked.
pub fn is_listed(positions: &[u8], part: u16) -> bool {
    positions.iter().any(|&position| u16::from(position) == part)
}

/// "An engineer's grant counts as every part"; a letter of no role counts as none.
pub fn is_shown(role: u8, positions: &[u8], part: u16) -> bool {
    match role {
        b'E' => true,
        b'T' | b'R' => is_listed(positions, part),
        _ => false,
    }
}

/// "A rewrite is within a translator's grant never, within a reviewer's exactly if that side has a
/// complete pair or annotation of that id and both halves stand in granted parts."
pub fn is_granted(role: u8, positions: &[u8], unit: &Unit, request: &Request) -> bool {
    match (role, request) {
        (b'E', _) => true,
        (b'T' | b'R', Request::SetTarget { part, .. } | Request::RemoveTarget { part }) => {
            is_listed(positions, *part)
        }
        (b'R', Request::Rewrite { side, id, .. }) => match halves(unit, *side, *id)[..] {
            [one, two] => is_listed(positions, one) && is_listed(positions, two),
            _ => false,
        },
        _ => false,
    }
}

/// The part of each half of this id on this side, in table order. In a valid unit there are two of
/// them exactly if they are a complete pair or annotation: a half without partner is "the only half
/// of its id there".
pub fn halves(unit: &Unit, side: u8, id: u16) -> Vec<u16> {
    let mut halves = Vec::new();
    for (part, position) in unit.parts.iter().zip(1..) {
        let content: &[Placed] = match (side, &part.target) {
            (b'S', _) => &part.source,
            (b'T', Some(target)) => &target.content,
            _ => &[],
        };
        let of_id = |placed: &&Placed| placed.inline.id() == Some(id);
        let found = content.iter().filter(of_id).filter(|placed| placed.inline.half().is_some());
        halves.extend(found.map(|_| position));
    }
    halves
}

/// The view, cut out of a valid table record by record.
pub fn cut_out(role: u8, positions: &[u8], table: &[u8]) -> Vec<u8> {
    let shown = |part: u16| is_shown(role, positions, part);
    let (mut view, mut offset, mut part, mut in_target) = (Vec::new(), 0, 0, false);
    while let Some(length) = record_length(table, offset).filter(|_| offset < table.len()) {
        let record = &table[offset..offset + length];
        let mark = &record[..2];
        part += u16::from(mark == b"SG" || mark == b"IG");
        in_target = mark == b"TG" || in_target && !matches!(mark, b"SG" | b"IG" | b"UE");
        if mark == b"SG" && !shown(part) {
            view.extend([&record[..5], b"I"].concat());
        } else if !in_target || shown(part) {
            view.extend(record);
        }
        offset += length;
    }
    view
}
