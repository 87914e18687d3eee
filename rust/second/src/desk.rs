//! Document 01, "Desk program": exactly the bytes that it prints for a job.

use crate::operations::{join, remove_target, rewrite, set_target, split, Operation, Outcome};
use crate::record::{number_at, record_length};
use crate::rules::check;
use crate::{Refusal, MOST_BYTES, MOST_JOB_BYTES};

/// The numbers by which the desk program can refuse. 22 is not among them: it reads no XML.
pub const NUMBERS: [u16; 22] =
    [1, 2, 3, 4, 5, 6, 7, 8, 9, 10, 11, 12, 13, 14, 15, 16, 17, 18, 19, 20, 21, 23];

/// A request of a job, read by mark and length only: "Wrong letters go to the operation."
#[derive(Clone, Debug, PartialEq, Eq)]
pub enum Request<'a> {
    Split { part: u16, source_cut: u16, target_cut: u16, new_id: u16 },
    Join { part: u16 },
    SetTarget { part: u16, state: u8, content: &'a [u8] },
    RemoveTarget { part: u16 },
    Rewrite { side: u8, id: u16, form: u8 },
}

impl Request<'_> {
    pub fn run(&self, table: &[u8], room: usize) -> Outcome {
        match *self {
            Request::Split { part, source_cut, target_cut, new_id } => {
                split(table, part, source_cut, target_cut, new_id, room)
            }
            Request::Join { part } => join(table, part, room),
            Request::SetTarget { part, state, content } => {
                set_target(table, part, state, content, room)
            }
            Request::RemoveTarget { part } => remove_target(table, part, room),
            Request::Rewrite { side, id, form } => rewrite(table, side, id, form, room),
        }
    }
}

/// "A job is a table up to the first `UE` reached record by record (else the whole input)".
/// The table's length. The walk knows marks and lengths only.
pub fn table_length(job: &[u8]) -> usize {
    let mut offset = 0;
    while let Some(length) = record_length(job, offset) {
        let is_end = &job[offset..offset + 2] == b"UE";
        offset += length;
        if is_end {
            return offset;
        }
    }
    job.len()
}

/// The request at the offset, with its length; nothing if its mark is unknown or it is cut
/// short by the job's end.
pub fn read_request(job: &[u8], offset: usize) -> Option<(Request<'_>, usize)> {
    let rest = &job[offset..];
    let operation = Operation::of_mark(rest.get(..2)?)?;
    let length = match operation {
        Operation::Split => 10,
        Operation::Join | Operation::RemoveTarget => 4,
        Operation::SetTarget => 7 + number_at(rest.get(..7)?, 5) as usize,
        Operation::Rewrite => 6,
    };
    let bytes = rest.get(..length)?;
    let request = match operation {
        Operation::Split => Request::Split {
            part: number_at(bytes, 2),
            source_cut: number_at(bytes, 4),
            target_cut: number_at(bytes, 6),
            new_id: number_at(bytes, 8),
        },
        Operation::Join => Request::Join { part: number_at(bytes, 2) },
        Operation::SetTarget => {
            Request::SetTarget { part: number_at(bytes, 2), state: bytes[4], content: &bytes[7..] }
        }
        Operation::RemoveTarget => Request::RemoveTarget { part: number_at(bytes, 2) },
        Operation::Rewrite => {
            Request::Rewrite { side: bytes[2], id: number_at(bytes, 3), form: bytes[5] }
        }
    };
    Some((request, length))
}

/// "It reads a job of at most 65,535 bytes (later input is not read)".
pub fn job_of(input: &[u8]) -> &[u8] {
    &input[..input.len().min(MOST_JOB_BYTES)]
}

/// What the desk program prints for its input.
pub fn desk(input: &[u8]) -> Vec<u8> {
    let job = job_of(input);
    let mut offset = table_length(job);
    let mut table = job[..offset].to_vec();
    // "A refused table prints its line only."
    if let Err(refusal) = check(&table) {
        return refused_line(refusal).into_bytes();
    }
    let mut printed = String::new();
    while offset < job.len() {
        // "is unreadable: it prints `NO 2` with its offset in the job and ends the requests."
        let Some((request, length)) = read_request(job, offset) else {
            printed += &refused_line(Refusal { number: 2, place: offset });
            break;
        };
        match request.run(&table, MOST_BYTES) {
            Ok(result) => {
                printed += &format!("OK {}\n", result.len());
                table = result;
            }
            Err(refusal) => printed += &refused_line(refusal),
        }
        offset += length;
    }
    // "last the table in upper hexadecimal; every line ends in a line feed."
    printed += &hexadecimal(&table);
    printed.push('\n');
    printed.into_bytes()
}

fn refused_line(refusal: Refusal) -> String {
    format!("NO {} {}\n", refusal.number, refusal.place)
}

pub fn hexadecimal(bytes: &[u8]) -> String {
    bytes.iter().map(|byte| format!("{byte:02X}")).collect()
}

/// Bytes from hexadecimal in either case; nothing if it is none.
pub fn from_hexadecimal(text: &str) -> Option<Vec<u8>> {
    let digits: Option<Vec<u8>> =
        text.chars().map(|c| c.to_digit(16).map(|digit| digit as u8)).collect();
    let digits = digits.filter(|digits| digits.len() % 2 == 0)?;
    Some(digits.chunks(2).map(|pair| pair[0] << 4 | pair[1]).collect())
}
