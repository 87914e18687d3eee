//! Views, and calls with a grant (document 02, order 6).

use crate::desk::{read_request, Request};
use crate::ops::{check, no, rewrite_if, with_desk};
use crate::unit::{Part, Unit, NONE};
use crate::Answer::{self, Accepted, Refused};

/// The granted parts: one entry for each position.
struct Granted([bool; 256]);

impl Granted {
    fn of(role: u8, positions: &[u8]) -> Granted {
        let mut granted = [role == b'E'; 256];
        if matches!(role, b'T' | b'R') {
            positions.iter().for_each(|&p| granted[usize::from(p)] = true);
        }
        Granted(granted)
    }

    fn has(&self, position: usize) -> bool {
        self.0.get(position).copied().unwrap_or(false)
    }

    /// Whether both halves of the pair or annotation stand in granted parts.
    fn has_halves(&self, unit: &Unit, side: u8, id: u16) -> bool {
        let start = match side {
            b'S' | b'T' => unit.start(id, side == b'T').map(|i| unit.codes[i]),
            _ => None,
        };
        let end = |partner: u16| unit.codes[usize::from(partner)].part;
        start.is_some_and(|s| {
            s.kind.is_half()
                && s.partner != NONE
                && self.has(usize::from(s.part) + 1)
                && self.has(usize::from(end(s.partner)) + 1)
        })
    }
}

/// The table without the targets of parts outside the grant, in one pass.
pub fn view(role: u8, positions: &[u8], table: &[u8], out: &mut [u8]) -> Answer {
    let granted = Granted::of(role, positions);
    with_desk(|d| {
        d.unit.check(table)?;
        let outside = || {
            let parts = d.unit.parts.iter().enumerate();
            parts.filter(|(i, _)| !granted.has(i + 1)).map(|(_, part)| part)
        };
        let source_end = |p: &Part| p.target.map_or(p.end, |t| t.off) as usize;
        let hidden: usize = outside().map(|p| p.end as usize - source_end(p)).sum();
        let len = table.len() - hidden;
        if len > out.len() {
            return no(15);
        }
        let (mut from, mut at) = (0, 0);
        for p in outside() {
            let to = source_end(p);
            out[at..at + to - from].copy_from_slice(&table[from..to]);
            if p.segment {
                out[at + p.off as usize - from + 5] = b'I';
            }
            at += to - from;
            from = p.end as usize;
        }
        out[at..len].copy_from_slice(&table[from..]);
        Ok(len)
    })
}

/// A request with a grant.
pub fn granted_call(
    role: u8,
    positions: &[u8],
    table: &[u8],
    request: &[u8],
    out: &mut [u8],
) -> Answer {
    let read = read_request(request, 0).filter(|(_, end)| *end == request.len());
    let Some((read, _)) = read else { return behind_check(table, 2) };
    let granted = Granted::of(role, positions);
    match read {
        _ if role == b'E' => read.run(table, out),
        Request::SetTarget { part, .. } | Request::RemoveTarget { part } => {
            if granted.has(usize::from(part)) {
                read.run(table, out)
            } else {
                behind_check(table, 24)
            }
        }
        Request::Rewrite { side, id, form } if role == b'R' => {
            rewrite_if(table, side, id, form, out, |unit| granted.has_halves(unit, side, id))
        }
        _ => behind_check(table, 24),
    }
}

/// The table's own refusal, or this one.
fn behind_check(table: &[u8], number: u8) -> Answer {
    match check(table) {
        Accepted(_) => Refused(number, 0),
        refused => refused,
    }
}
