//! Document 02, order 6, "Translators see their own parts": "A grant is a role and a set of part
//! positions at the call".

use crate::desk::Request;
use crate::operations::Outcome;
use crate::rules::check;
use crate::rules::partners::{complete, partners};
use crate::rules::sequence::{sequence, Side};
use crate::table::{Part, PartKind, Unit};
use crate::Refusal;

#[derive(Clone, Copy, Debug, PartialEq, Eq)]
pub struct Grant<'a> {
    /// A letter: T translator, R reviewer, E engineer. Any other letter grants nothing.
    pub role: u8,
    /// Each byte a part's position, in any sequence.
    pub positions: &'a [u8],
}

/// "24, call not granted, after the table's check and before everything else."
pub fn granted_call(grant: &Grant, table: &[u8], request: &Request, room: usize) -> Outcome {
    let unit = check(table)?;
    if !grant.allows(&unit, request) {
        return Err(Refusal::without_place(24));
    }
    request.run(table, room)
}

/// "The view is the table without the targets of parts outside the grant, the state there shown as
/// I, orders kept." Its length is bound by the room alone.
pub fn view(grant: &Grant, table: &[u8], room: usize) -> Outcome {
    let mut unit = check(table)?;
    let parts = unit.parts.iter_mut().zip(1..);
    parts.filter(|(_, position)| !grant.has_part(*position)).for_each(|(part, _)| hide(part));
    let view = unit.write();
    if view.len() > room {
        return Err(Refusal::without_place(15));
    }
    Ok(view)
}

fn hide(part: &mut Part) {
    part.target = None;
    if let PartKind::Segment { state, .. } = &mut part.kind {
        *state = b'I';
    }
}

impl Grant<'_> {
    /// Whether the part of this position is granted, be it in the table or not. "An engineer's
    /// grant counts as every part".
    fn has_part(&self, position: u16) -> bool {
        match self.role {
            b'E' => true,
            b'T' | b'R' => self.positions.iter().any(|&granted| u16::from(granted) == position),
            _ => false,
        }
    }

    /// "translators set or remove targets there, reviewers also rewrite there, engineers do
    /// everything anywhere."
    fn allows(&self, unit: &Unit, request: &Request) -> bool {
        match (self.role, request) {
            (b'E', _) => true,
            (_, Request::SetTarget { part, .. } | Request::RemoveTarget { part }) => {
                self.has_part(*part)
            }
            (b'R', Request::Rewrite { side, id, .. }) => self.has_halves(unit, *side, *id),
            _ => false,
        }
    }

    /// "exactly if that side has a complete pair or annotation of that id and both halves stand in
    /// granted parts."
    fn has_halves(&self, unit: &Unit, side: u8, id: u16) -> bool {
        let standing = match side {
            b'S' => sequence(unit, Side::Source),
            b'T' => sequence(unit, Side::Target),
            _ => return false,
        };
        let granted = |place: usize| self.has_part(standing[place].part as u16 + 1);
        complete(&standing, &partners(&standing), id)
            .is_some_and(|(start, end)| granted(start) && granted(end))
    }
}
