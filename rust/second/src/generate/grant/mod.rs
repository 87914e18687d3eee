//! Seeded jobs for order 6 of document 02: views, and calls with a grant.

mod calls;
mod positions;
mod rewrites;
mod small;
mod tables;

use super::line_job::{room, About, LineJob, LineKind};
use super::random::Random;
use super::unit::{valid_table, valid_table_of};
use crate::desk::read_request;
use crate::grant::{granted_call, view, Grant};
use crate::lines::{answered, in_digits, requested};
use crate::rules::check;
use crate::MOST_BYTES;

use calls::{call, Call};
use positions::positions;

pub use small::small_grants;

#[derive(Clone, Copy, Debug, PartialEq, Eq, PartialOrd, Ord)]
pub enum GrantKind {
    View,
    Target,
    Rewrite,
    SplitOrJoin,
    ManyParts,
    Refused,
    Unreadable,
}

impl LineKind for GrantKind {
    const ALL: &'static [GrantKind] = &[
        GrantKind::View,
        GrantKind::Target,
        GrantKind::Rewrite,
        GrantKind::SplitOrJoin,
        GrantKind::ManyParts,
        GrantKind::Refused,
        GrantKind::Unreadable,
    ];

    const SHARES: &'static [usize] = &[17, 26, 34, 7, 5, 9, 2];

    fn name(self) -> &'static str {
        match self {
            GrantKind::View => "views",
            GrantKind::Target => "targets set and removed",
            GrantKind::Rewrite => "rewrites",
            GrantKind::SplitOrJoin => "splits and joins",
            GrantKind::ManyParts => "any of these, many parts",
            GrantKind::Refused => "any of these, refused tables",
            GrantKind::Unreadable => "unreadable requests",
        }
    }
}

/// A view that is asked for, or a call, with its grant.
#[derive(Clone, Debug)]
pub struct GrantJob {
    pub kind: GrantKind,
    pub role: u8,
    pub positions: Vec<u8>,
    pub room: usize,
    pub table: Vec<u8>,
    /// The request of a call; none where the view is asked for.
    pub request: Option<Vec<u8>>,
}

impl GrantJob {
    pub fn grant(&self) -> Grant<'_> {
        Grant { role: self.role, positions: &self.positions }
    }
}

impl LineJob for GrantJob {
    type Kind = GrantKind;

    fn kind(&self) -> GrantKind {
        self.kind
    }

    fn line(&self) -> String {
        let (role, positions) = (char::from(self.role), in_digits(&self.positions));
        let (room, table) = (self.room, in_digits(&self.table));
        match &self.request {
            None => format!("view {role} {positions} {room} {table}"),
            Some(request) => {
                format!("grantcall {role} {positions} {room} {table} {}", in_digits(request))
            }
        }
    }

    fn answer(&self) -> String {
        match &self.request {
            None => answered(view(&self.grant(), &self.table, self.room)),
            Some(request) => requested(request, |request| {
                granted_call(&self.grant(), &self.table, request, self.room)
            }),
        }
    }

    fn about(&self) -> About<'_> {
        About::Table { table: &self.table, request: self.request.as_deref().unwrap_or(b"") }
    }
}

/// The grant job of this seed and number.
pub fn grant_job(seed: u64, number: u64) -> GrantJob {
    let random = &mut Random::of_job(seed, number);
    let kind = random.by_share(GrantKind::ALL, GrantKind::SHARES);
    let valid = match kind {
        GrantKind::ManyParts => {
            let parts = *random.pick(&[20, 40, 63, 64, 64, 64]);
            valid_table_of(random, parts)
        }
        GrantKind::Rewrite => tables::table_of_pairs(random),
        _ => valid_table(random),
    };
    let unit = check(&valid).expect("a valid table");
    let Call { request, parts } = call(random, kind, &unit);
    let positions = positions(random, &parts, unit.parts.len());
    let role = role(random, kind);
    let table = if kind == GrantKind::Refused { tables::refused_table(random) } else { valid };
    let mut job = GrantJob { kind, role, positions, room: 0, table, request };
    job.room = if random.chance(4) { 0 } else { room(random, needed(&job), MOST_BYTES) };
    job
}

/// Each role, a letter of none, and small letters; most often such as can be granted the call.
fn role(random: &mut Random, kind: GrantKind) -> u8 {
    let letters: &[u8] = match kind {
        GrantKind::Rewrite => b"RRRRRRRRRRRTE",
        GrantKind::Target => b"TTTTTTRRRRRREEEEtrX",
        GrantKind::SplitOrJoin => b"EEEEEETTTRRRXXte",
        _ => b"TTTRRREE",
    };
    match random.below(8) {
        0 => random.letter(b"XSIAZ-0+"),
        1 => random.letter(b"tre"),
        _ => random.letter(letters),
    }
}

/// The length of the view, or of the result if the call is granted.
fn needed(job: &GrantJob) -> usize {
    let outcome = match &job.request {
        None => view(&job.grant(), &job.table, MOST_BYTES).ok(),
        Some(request) => read_request(request, 0)
            .and_then(|(request, _)| request.run(&job.table, MOST_BYTES).ok()),
    };
    outcome.map_or(100, |result| result.len())
}
