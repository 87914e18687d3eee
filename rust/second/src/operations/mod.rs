//! Document 01, "Operations and their refusals". Each operation takes the table's bytes, its
//! arguments and the room (the output's length), and gives the result's bytes or a refusal.
//! "All others check the table first, 1 to 10."

pub mod chains;
pub mod content;
mod join;
mod remove_target;
mod rewrite;
mod set_target;
mod split;

use crate::table::Unit;
use crate::{Refusal, MOST_BYTES, MOST_PARTS, MOST_RECORDS};

pub use join::join;
pub use remove_target::remove_target;
pub use rewrite::rewrite;
pub use set_target::set_target;
pub use split::{split, start_and_end};

pub type Outcome = Result<Vec<u8>, Refusal>;

/// The five operations.
#[derive(Clone, Copy, Debug, PartialEq, Eq)]
pub enum Operation {
    Split,
    Join,
    SetTarget,
    RemoveTarget,
    Rewrite,
}

impl Operation {
    pub const ALL: [Operation; 5] = [
        Operation::Split,
        Operation::Join,
        Operation::SetTarget,
        Operation::RemoveTarget,
        Operation::Rewrite,
    ];

    /// The mark of its request in a job.
    pub fn mark(self) -> &'static [u8; 2] {
        match self {
            Operation::Split => b"SP",
            Operation::Join => b"JN",
            Operation::SetTarget => b"ST",
            Operation::RemoveTarget => b"RT",
            Operation::Rewrite => b"RW",
        }
    }

    pub fn of_mark(mark: &[u8]) -> Option<Operation> {
        Operation::ALL.into_iter().find(|operation| operation.mark() == mark)
    }
}

/// "15 is an output too short for the result, or a result beyond a limit above."
pub fn hand_out(unit: &Unit, room: usize) -> Outcome {
    let result = unit.write();
    let beyond = unit.parts.len() > MOST_PARTS
        || unit.records().len() > MOST_RECORDS
        || result.len() > MOST_BYTES;
    if beyond || result.len() > room {
        return Err(Refusal::without_place(15));
    }
    Ok(result)
}
