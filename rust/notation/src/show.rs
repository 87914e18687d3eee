//! From bytes to lines. Bytes that the notation cannot say stand in hexadecimal, with a word why.

use crate::fields::{fields_of, is_letter, Field};
use crate::hexadecimal::hexadecimal;
use crate::request::Request;

/// A line, and the offset of its record or request in the bytes.
#[derive(Clone, Debug, PartialEq, Eq)]
pub struct Line {
    pub offset: usize,
    pub text: String,
}

/// The records of a table or content.
pub fn records(bytes: &[u8]) -> Vec<Line> {
    let mut lines = Vec::new();
    let mut offset = 0;
    while let Some((text, length)) = first_record(&bytes[offset..]) {
        lines.push(Line { offset, text });
        offset += length;
    }
    if offset < bytes.len() {
        let text = format!("{} (no record)", hexadecimal(&bytes[offset..]));
        lines.push(Line { offset, text });
    }
    lines
}

/// The records and requests of a job. The records of a content are set in, their offsets count
/// from the content's first byte.
pub fn job(bytes: &[u8]) -> Vec<Line> {
    let length = table_length(bytes);
    let mut lines = records(&bytes[..length]);
    lines.extend(requests_from(bytes, length));
    lines
}

/// Requests with no table before them; else as those of a job.
pub fn requests(bytes: &[u8]) -> Vec<Line> {
    requests_from(bytes, 0)
}

fn requests_from(bytes: &[u8], mut offset: usize) -> Vec<Line> {
    let mut lines = Vec::new();
    while offset < bytes.len() {
        let Some((request, length)) = Request::first(&bytes[offset..]) else {
            let text = format!("{} (no request)", hexadecimal(&bytes[offset..]));
            lines.push(Line { offset, text });
            break;
        };
        lines.push(Line { offset, text: request.line() });
        if let Request::SetTarget { content, .. } = &request {
            let content = records(content).into_iter();
            lines.extend(content.map(|line| Line { text: format!("  {}", line.text), ..line }));
        }
        offset += length;
    }
    lines
}

/// "a table up to the first `UE` reached record by record (else the whole input)".
fn table_length(job: &[u8]) -> usize {
    let mut offset = 0;
    while let Some((line, length)) = first_record(&job[offset..]) {
        offset += length;
        if line == "UE" {
            return offset;
        }
    }
    job.len()
}

/// The line of the record at the head of these bytes, and its length.
fn first_record(bytes: &[u8]) -> Option<(String, usize)> {
    let mark = std::str::from_utf8(bytes.get(..2)?).ok()?;
    let mut line = mark.to_string();
    let mut at = 2;
    for field in fields_of(mark)? {
        let (word, length) = first_field(*field, &bytes[at..])?;
        line += &format!(" {word}");
        at += length;
    }
    Some((line, at))
}

fn first_field(field: Field, bytes: &[u8]) -> Option<(String, usize)> {
    let number = || Some(u16::from_be_bytes(*bytes.first_chunk()?));
    match field {
        Field::Number => Some((number()?.to_string(), 2)),
        Field::Letter => Some((letter_in_notation(*bytes.first()?), 1)),
        Field::Point => {
            let point = u32::from_be_bytes(*bytes.first_chunk()?);
            Some((format!("{point:X}"), 4))
        }
        Field::Text => {
            let end = 2 + usize::from(number()?);
            Some((text_in_notation(bytes.get(2..end)?), end))
        }
    }
}

pub fn letter_in_notation(letter: u8) -> String {
    if is_letter(letter) {
        (letter as char).to_string()
    } else {
        format!("{letter:02X} (no letter)")
    }
}

fn text_in_notation(text: &[u8]) -> String {
    match std::str::from_utf8(text) {
        Ok(text) => format!("{text:?}"),
        Err(_) => format!("{} (not UTF-8)", hexadecimal(text)),
    }
}
