//! The jobs that `./test` compares: every sheet reads back, and the delicate cases occur.

use std::collections::BTreeSet;

use second::generate::{
    sheet_edges, sheet_job, LineJob, LineKind, SheetJob, SheetKind, ENOUGH, JOBS, SEED,
};
use second::rules::check;

use super::cases::{at_row_end, in_column, in_part};
use super::counted::Counts;
use super::reading::read_back;
use super::refused;

/// What must occur, with `|` between two of these.
const IN_JOBS: &str = "1 part|2 to 9 parts|10 to 63 parts|64 parts|output just long enough\
    |output one byte longer|output far longer|15 by one byte|15 with no output|15 by more\
    |refused by 1|refused by 2|refused by 3|refused by 4|refused by 5|refused by 6|refused by 7\
    |refused by 8|refused by 9|refused by 10";

const IN_PARTS: &str = "id of 0 digits|id of 1 digits|id of 2 digits|id of 3 digits|id of 4 digits\
    |id of 5 digits|id 65535|an ignorable|an ignorable with target|state I|state T|state R|state F\
    |no target|an empty target|no item in either column|as many rows in both columns, several\
    |100 rows";

/// In each of the two columns.
const IN_COLUMNS: &str = "no item|a full row and no more|a full row and one cell\
    |more rows than the other column|a tab|a line feed|a return|CP|a character of 1 byte\
    |a character of 2 bytes|a character of 3 bytes|a character of 4 bytes\
    |PH|PO|PC|SC|EC|IS|IE|MO|MC|SM|EM";

/// In each of the two columns, where a row ends and another begins.
const AT_ROW_ENDS: &str = "a full row, then a character|a full row, then a marker\
    |an accent begins a row|a marker is one cell too long|a marker does not fit, one cell is left\
    |a marker does not fit, a later character would|a marker does not fit, a later marker would\
    |a marker does not fit behind markers alone";

impl Counts {
    /// A job, and of a valid unit its sheet, which must read back.
    fn add_job(&mut self, job: &SheetJob) {
        let unit = match check(&job.input) {
            Ok(unit) => unit,
            Err(refusal) => {
                assert_eq!((job.kind, job.outcome()), (SheetKind::Refused, Err(refusal)));
                return self.add(format!("refused by {}", refusal.number));
            }
        };
        self.add(match unit.parts.len() {
            1 => "1 part",
            2..=9 => "2 to 9 parts",
            10..=63 => "10 to 63 parts",
            _ => "64 parts",
        });
        let sheet = job.operation().run(&job.input, ENOUGH).expect("a valid unit");
        // What the library tells of its output's length.
        assert!(sheet.len() <= 20 * job.input.len());
        read_back(&sheet, &unit, |part, source, target| {
            in_part(part, source, target).into_iter().for_each(|case| self.add(case));
            for (name, rows, other) in [("source", source, target), ("target", target, source)] {
                let at_row_ends: BTreeSet<String> = rows.iter().flat_map(at_row_end).collect();
                let cases = in_column(rows, other).into_iter().map(String::from);
                cases.chain(at_row_ends).for_each(|case| self.add(format!("{name}: {case}")));
            }
        });
        self.add_answer(job, sheet);
    }

    fn add_answer(&mut self, job: &SheetJob, sheet: Vec<u8>) {
        let (room, needed) = (job.room, sheet.len());
        let expected = if room < needed { refused(15, 0) } else { Ok(sheet) };
        assert_eq!(job.outcome(), expected);
        self.add(match room.checked_sub(needed) {
            Some(0) => "output just long enough",
            Some(1) => "output one byte longer",
            Some(_) => "output far longer",
            None if room == 0 => "15 with no output",
            None if room + 1 == needed => "15 by one byte",
            None => "15 by more",
        });
    }
}

fn named(cases: &str) -> Vec<String> {
    cases.split('|').map(String::from).collect()
}

fn in_both_columns(cases: Vec<String>) -> impl Iterator<Item = String> {
    cases.into_iter().flat_map(|case| ["source", "target"].map(|name| format!("{name}: {case}")))
}

/// Each marker at a row's end, and moved from there.
fn markers() -> Vec<String> {
    let shapes = ["standalone", "start", "end"].into_iter();
    let markers = shapes.flat_map(|s| (1..=5).map(move |d| format!("{s} of {d} digits")));
    markers
        .flat_map(|m| ["ends with its row", "does not fit"].map(|case| format!("{m} {case}")))
        .collect()
}

#[test]
fn generated_sheets_read_back() {
    let mut counts = Counts::default();
    for number in 0..JOBS as u64 {
        let job = sheet_job(SEED, number);
        counts.add(job.kind.name());
        counts.add_job(&job);
    }
    counts.print();
    for (kind, share) in SheetKind::ALL.iter().zip(SheetKind::SHARES) {
        counts.must_have(JOBS * share / 100 / 2, [kind.name().to_string()]);
    }
    counts.must_have(20, named(IN_JOBS).into_iter().chain(named(IN_PARTS)));
    counts.must_have(
        20,
        in_both_columns([named(IN_COLUMNS), named(AT_ROW_ENDS), markers()].concat()),
    );
}

/// The list that is always the same.
#[test]
fn every_marker_about_a_rows_end() {
    let mut counts = Counts::default();
    sheet_edges().iter().for_each(|job| counts.add_job(job));
    counts.print();
    counts.must_have(2, in_both_columns(markers()));
}

/// A job's line and its answer are of the line protocol.
#[test]
fn jobs_are_lines() {
    for number in 0..300 {
        let job = sheet_job(SEED + 1, number);
        assert_eq!(second::lines::answer(&job.line()), Some(job.answer()));
    }
}
