//! The commands: each gives what it prints and how it ends.

use xliff_desk::{Answer, Grant};

use crate::difference::marked;
use crate::job::{Job, Unit, ROOM};
use crate::table::{set_in, texts};
use crate::{lines, requests};

/// Enough for every table's text in XML and for its sheet, 16 and 20 bytes for each of its own, and
/// for its views.
const TEXT_ROOM: usize = 20 * ROOM;

/// What a command prints to standard output, and how it ends.
#[derive(Clone, Debug, PartialEq, Eq)]
pub struct Shown {
    pub text: String,
    pub end: End,
}

#[derive(Clone, Debug, PartialEq, Eq)]
pub enum End {
    /// Nothing is refused: exit status 0.
    Accepted,
    /// The unit or a request is refused: exit status 1.
    Refused,
    /// The command cannot be carried out, and why: exit status 2.
    Failed(String),
}

impl Shown {
    pub fn accepted(text: impl Into<String>) -> Shown {
        Shown { text: text.into(), end: End::Accepted }
    }

    pub fn refused(text: impl Into<String>) -> Shown {
        Shown { text: text.into(), end: End::Refused }
    }

    pub fn failed(why: impl Into<String>) -> Shown {
        Shown { text: String::new(), end: End::Failed(why.into()) }
    }
}

/// Each request's answer in words, and the table before and after with the differences marked. With
/// a grant each request must be within it.
pub fn run(job: &Job, grant: Option<Grant>) -> Shown {
    let (mut shown, table) = session(job, grant);
    if let Some(table) = table {
        shown.text += &format!("\nthe table:\n{}", set_in(&table));
    }
    shown
}

/// The answers to a job's requests, and the table after them, unless it is refused itself.
fn session(job: &Job, grant: Option<Grant>) -> (Shown, Option<Vec<u8>>) {
    let mut table = match job.unit.table() {
        Ok(table) => table,
        Err(refusal) => return (Shown::refused(format!("check: {refusal}")), None),
    };
    let mut shown = Shown::accepted(format!("check: {}\n", in_words(Ok(table.len()))));
    for request in &job.requests {
        let mut out = vec![0; ROOM];
        let answer = requests::ask_within(grant, request, &table, &mut out);
        shown.text += &format!("\n{}\n{}\n", requests::in_words(request), in_words(answer));
        match answer {
            Ok(length) => {
                out.truncate(length);
                shown.text += &marked(&texts(&table), &texts(&out));
                table = out;
            }
            Err(_) => shown.end = End::Refused,
        }
    }
    (shown, Some(table))
}

/// The answer of the check in words; of a refused unit, what is blamed is shown.
pub fn check(job: &Job) -> Shown {
    match job.unit.table() {
        Ok(table) => Shown::accepted(format!("{}\n", in_words(Ok(table.len())))),
        Err(refusal) => Shown::refused(refusal),
    }
}

/// The table's lines. One that is given as a table is not checked.
pub fn show(unit: &Unit) -> Shown {
    match unit {
        Unit::Table(table) => Shown::accepted(set_in(table)),
        Unit::Xml(_) => match unit.table() {
            Ok(table) => Shown::accepted(set_in(&table)),
            Err(refusal) => Shown::refused(refusal),
        },
    }
}

/// The table after the job's requests, as XML; where anything is refused, the answers.
pub fn xml(job: &Job) -> Shown {
    let with_line_feed = |text: &[u8]| format!("{}\n", String::from_utf8_lossy(text));
    after_requests(job, xliff_desk::write_xml, with_line_feed)
}

/// The review sheet of the table after the job's requests; where anything is refused, the answers.
pub fn sheet(job: &Job) -> Shown {
    after_requests(job, xliff_desk::sheet, |sheet| String::from_utf8_lossy(sheet).into_owned())
}

/// What the grant lets see of the table after the job's requests, which run without it; where
/// anything is refused, the answers.
pub fn view(job: &Job, grant: Grant) -> Shown {
    after_requests(job, |table, out| xliff_desk::view(grant, table, out), set_in)
}

/// What the operation makes of the table after the job's requests, as it is shown.
fn after_requests(
    job: &Job,
    operation: impl FnOnce(&[u8], &mut [u8]) -> Answer,
    shown: impl FnOnce(&[u8]) -> String,
) -> Shown {
    let (answers, table) = session(job, None);
    let Some(table) = table.filter(|_| answers.end == End::Accepted) else { return answers };
    let mut out = vec![0; TEXT_ROOM];
    match operation(&table, &mut out) {
        Ok(length) => Shown::accepted(shown(&out[..length])),
        Err(refusal) => Shown::refused(format!("{refusal}\n")),
    }
}

/// The answers to lines of the line protocol, up to the first line that is not of it.
pub fn lines(input: &[u8]) -> Shown {
    let mut shown = Shown::accepted("");
    let input = input.strip_suffix(b"\n").unwrap_or(input);
    if input.is_empty() {
        return shown;
    }
    for (index, line) in input.split(|byte| *byte == b'\n').enumerate() {
        let line = std::str::from_utf8(line).map_err(|_| "not a text".to_string());
        match line.and_then(lines::answer) {
            Ok(answer) => shown.text += &format!("{answer}\n"),
            Err(why) => {
                shown.end = End::Failed(format!("line {}: {why}", index + 1));
                break;
            }
        }
    }
    shown
}

fn in_words(answer: Answer) -> String {
    match answer {
        Ok(length) => format!("OK {length}: accepted"),
        Err(refusal) => refusal.to_string(),
    }
}
