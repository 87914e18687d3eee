//! From lines to bytes. The content of `ST part state` is the records below it, up to the next
//! request.

use std::fmt;

use crate::fields::{fields_of, Field};
use crate::request::Request;
use crate::words::{letter, number, point, text, words, Fault, Word};

/// So many bytes as the length of a content can say.
const MOST_CONTENT: usize = 65535;

/// A table's bytes and the requests behind it.
#[derive(Clone, Debug, Default, PartialEq, Eq)]
pub struct Job {
    pub table: Vec<u8>,
    pub requests: Vec<Request>,
}

/// Where the notation cannot be read, and why. Lines and columns count from 1.
#[derive(Clone, Debug, PartialEq, Eq)]
pub struct Mistake {
    pub line: usize,
    pub column: usize,
    pub what: String,
}

impl fmt::Display for Mistake {
    fn fmt(&self, out: &mut fmt::Formatter) -> fmt::Result {
        write!(out, "line {}, column {}: {}", self.line, self.column, self.what)
    }
}

/// The job that a text says.
pub fn read(text: &str) -> Result<Job, Mistake> {
    read_from(text, false)
}

/// The requests that a text says, with no table before them.
pub fn read_requests(text: &str) -> Result<Vec<Request>, Mistake> {
    read_from(text, true).map(|job| job.requests)
}

fn read_from(text: &str, mut table_ended: bool) -> Result<Job, Mistake> {
    let mut job = Job::default();
    for (index, line) in text.lines().enumerate() {
        let mistake = |(column, what): Fault| Mistake { line: index + 1, column, what };
        let words = words(line).map_err(mistake)?;
        let Some(&(column, mark)) = words.first() else { continue };
        let given = Given { mark, column, words: &words[1..], end: line.chars().count() + 1 };
        if let Some(fields) = fields_of(mark) {
            let record = record(&given, fields).map_err(mistake)?;
            match job.requests.last_mut() {
                None if !table_ended => {
                    job.table.extend(record);
                    table_ended = mark == "UE";
                }
                Some(Request::SetTarget { content, .. }) => {
                    content.extend(record);
                    if content.len() > MOST_CONTENT {
                        return Err(mistake((column, "the content has over 65,535 bytes".into())));
                    }
                }
                _ => return Err(mistake((column, format!("{mark} stands behind the table")))),
            }
        } else {
            job.requests.push(request(&given).map_err(mistake)?);
            table_ended = true;
        }
    }
    Ok(job)
}

/// A mark with its column, the words behind it, and the column behind the line's end.
struct Given<'a> {
    mark: &'a str,
    column: usize,
    words: &'a [Word<'a>],
    end: usize,
}

impl<'a> Given<'a> {
    /// The words behind the mark: exactly so many.
    fn fields<const COUNT: usize>(&self) -> Result<[Word<'a>; COUNT], Fault> {
        self.words.try_into().map_err(|_| self.wrong_count(COUNT))
    }

    fn wrong_count(&self, count: usize) -> Fault {
        let column = self.words.get(count).map_or(self.end, |(column, _)| *column);
        (column, format!("{} has {count} fields, not {}", self.mark, self.words.len()))
    }
}

fn record(given: &Given, fields: &[Field]) -> Result<Vec<u8>, Fault> {
    if given.words.len() != fields.len() {
        return Err(given.wrong_count(fields.len()));
    }
    let mut bytes = given.mark.as_bytes().to_vec();
    for (field, word) in fields.iter().zip(given.words) {
        match field {
            Field::Number => bytes.extend(number(*word)?.to_be_bytes()),
            Field::Letter => bytes.push(letter(*word)?),
            Field::Point => bytes.extend(point(*word)?.to_be_bytes()),
            Field::Text => {
                let text = text(*word)?;
                bytes.extend((text.len() as u16).to_be_bytes());
                bytes.extend(text.as_bytes());
            }
        }
    }
    Ok(bytes)
}

fn request(given: &Given) -> Result<Request, Fault> {
    match given.mark {
        "SP" => {
            let [part, source_cut, target_cut, new_id] = given.fields()?;
            Ok(Request::Split {
                part: number(part)?,
                source_cut: number(source_cut)?,
                target_cut: number(target_cut)?,
                new_id: number(new_id)?,
            })
        }
        "JN" => {
            let [part] = given.fields()?;
            Ok(Request::Join { part: number(part)? })
        }
        "ST" => {
            let [part, state] = given.fields()?;
            let (part, state) = (number(part)?, letter(state)?);
            Ok(Request::SetTarget { part, state, content: Vec::new() })
        }
        "RT" => {
            let [part] = given.fields()?;
            Ok(Request::RemoveTarget { part: number(part)? })
        }
        "RW" => {
            let [side, id, form] = given.fields()?;
            Ok(Request::Rewrite { side: letter(side)?, id: number(id)?, form: letter(form)? })
        }
        mark => Err((given.column, format!("{mark} is neither a record nor a request"))),
    }
}
