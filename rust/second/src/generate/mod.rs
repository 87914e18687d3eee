//! Seeded jobs for the comparison: valid, nearly valid and damaged tables, limits, and requests.

mod chains;
mod changes;
mod cuts;
mod damage;
mod grant;
mod inline;
mod limits;
mod line_job;
mod mutations;
mod random;
mod rejoin;
mod requests;
mod set_target;
mod sheet;
mod source;
mod target;
mod unit;
mod xml;

use crate::rules::check;

pub use cuts::every_cut;
pub use grant::{grant_job, small_grants, GrantJob, GrantKind};
pub use line_job::{About, LineJob, LineKind, LineOperation, ENOUGH};
pub use random::Random;
pub use rejoin::splits_undone;
pub use sheet::{sheet_edges, sheet_job, SheetJob, SheetKind};
pub use unit::{drafted, valid_table};
pub use xml::{
    deep_unit, spelled_unit, valid_unit, xml_job, xml_neighbours, XmlJob, XmlKind, SMALL_TEXT,
};

#[derive(Clone, Copy, Debug, PartialEq, Eq)]
pub enum Kind {
    Valid,
    OneRuleBroken,
    SeveralRulesBroken,
    Damaged,
    Limit,
    Request,
    RequestList,
    UnreadableRequest,
}

impl Kind {
    pub const ALL: [Kind; 8] = [
        Kind::Valid,
        Kind::OneRuleBroken,
        Kind::SeveralRulesBroken,
        Kind::Damaged,
        Kind::Limit,
        Kind::Request,
        Kind::RequestList,
        Kind::UnreadableRequest,
    ];

    pub fn name(self) -> &'static str {
        match self {
            Kind::Valid => "valid units",
            Kind::OneRuleBroken => "units made to break one rule",
            Kind::SeveralRulesBroken => "units changed at several places",
            Kind::Damaged => "damaged bytes",
            Kind::Limit => "limits",
            Kind::Request => "one request",
            Kind::RequestList => "lists of requests",
            Kind::UnreadableRequest => "unreadable requests",
        }
    }

    /// How many jobs of a hundred, in the sequence of `ALL`.
    const SHARES: [usize; 8] = [8, 21, 7, 5, 6, 26, 23, 4];
}

/// How many jobs `differential` compares, and of which seed, unless it is told otherwise.
pub const JOBS: usize = 10_000;
pub const SEED: u64 = 20_260_101;

/// The job of this seed and number.
pub fn job(seed: u64, number: u64) -> (Kind, Vec<u8>) {
    let random = &mut Random::of_job(seed, number);
    let kind = random.by_share(&Kind::ALL, &Kind::SHARES);
    (kind, job_of_kind(random, kind))
}

fn job_of_kind(random: &mut Random, kind: Kind) -> Vec<u8> {
    match kind {
        Kind::Valid => valid_table(random),
        Kind::OneRuleBroken => {
            let number = *random.pick(&[2, 3, 5, 6, 7, 8, 9, 10]);
            mutations::table_refused_by(random, number)
        }
        Kind::SeveralRulesBroken => {
            let changes = 2 + random.below(5);
            mutations::table_changed(random, changes)
        }
        Kind::Damaged => damage::damaged(random),
        Kind::Limit => limits::at_limit(random),
        Kind::Request => requests_after_valid(random, 1),
        Kind::RequestList => {
            let count = 2 + random.below(7);
            requests_after_valid(random, count)
        }
        Kind::UnreadableRequest => {
            let count = random.below(3);
            let mut job = requests_after_valid(random, count);
            let unit = check(&valid_table(random)).expect("a valid table");
            job.extend(requests::unreadable(random, &unit));
            job
        }
    }
}

fn requests_after_valid(random: &mut Random, count: usize) -> Vec<u8> {
    let table = valid_table(random);
    requests::request_list(random, table, count)
}
