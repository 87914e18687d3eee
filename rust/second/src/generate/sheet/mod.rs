//! Seeded jobs for order 5 of document 02: tables whose review sheet is asked for.

mod edges;
mod units;

use super::damage::refused_table;
use super::line_job::{room, InputJob, InputKind, LineKind, LineOperation, ENOUGH};
use super::random::Random;
use super::unit::valid_table;
use crate::sheet::sheet;

pub use edges::sheet_edges;

#[derive(Clone, Copy, Debug, PartialEq, Eq, PartialOrd, Ord)]
pub enum SheetKind {
    Valid,
    Wrapped,
    ManyParts,
    Long,
    Refused,
}

impl LineKind for SheetKind {
    const ALL: &'static [SheetKind] = &[
        SheetKind::Valid,
        SheetKind::Wrapped,
        SheetKind::ManyParts,
        SheetKind::Long,
        SheetKind::Refused,
    ];

    const SHARES: &'static [usize] = &[16, 51, 6, 10, 17];

    fn name(self) -> &'static str {
        match self {
            SheetKind::Valid => "valid units",
            SheetKind::Wrapped => "contents of about 33 cells",
            SheetKind::ManyParts => "many parts",
            SheetKind::Long => "long contents",
            SheetKind::Refused => "refused tables",
        }
    }
}

impl InputKind for SheetKind {
    fn operation(self) -> LineOperation {
        LineOperation::Sheet
    }
}

/// A table whose sheet is asked for.
pub type SheetJob = InputJob<SheetKind>;

/// The sheet job of this seed and number.
pub fn sheet_job(seed: u64, number: u64) -> SheetJob {
    let random = &mut Random::of_job(seed, number);
    let kind = random.by_share(SheetKind::ALL, SheetKind::SHARES);
    let input = match kind {
        SheetKind::Valid => valid_table(random),
        SheetKind::Wrapped => {
            let parts = 1 + random.below(6);
            units::wrapped_table(random, parts)
        }
        SheetKind::ManyParts => {
            let parts = *random.pick(&[9, 10, 11, 20, 40, 63, 64]);
            units::wrapped_table(random, parts)
        }
        SheetKind::Long => units::long_table(random),
        SheetKind::Refused => refused_table(random),
    };
    let needed = sheet(&input, ENOUGH).map_or(100, |sheet| sheet.len());
    let room = room(random, needed, ENOUGH);
    SheetJob { kind, room, input }
}
