//! The second implementation of the XLIFF unit desk, written from documents 01 and 02 alone
//! (`01-scope.md` and the orders of `02-change-requests.md` that have landed, with the open
//! points read as `readings.md` and `readings-02.md` say), so that the proved desk program can
//! be compared with it.

pub mod desk;
pub mod generate;
pub mod grant;
pub mod lines;
pub mod operations;
pub mod record;
pub mod rejoin;
pub mod rules;
pub mod sheet;
pub mod table;
pub mod tally;
pub mod xml;

/// "refused with a number and a place".
#[derive(Clone, Copy, Debug, PartialEq, Eq)]
pub struct Refusal {
    pub number: u16,
    pub place: usize,
}

impl Refusal {
    /// "in every other refusal it is 0 unless said".
    pub fn without_place(number: u16) -> Refusal {
        Refusal { number, place: 0 }
    }
}

/// The limits of document 01, "Table" and "Desk program".
pub const MOST_BYTES: usize = 8192;
pub const MOST_RECORDS: usize = 1024;
pub const MOST_PARTS: usize = 64;
pub const MOST_JOB_BYTES: usize = 65535;
