//! A request of a job.

use crate::show::letter_in_notation;

#[derive(Clone, Debug, PartialEq, Eq)]
pub enum Request {
    Split { part: u16, source_cut: u16, target_cut: u16, new_id: u16 },
    Join { part: u16 },
    SetTarget { part: u16, state: u8, content: Vec<u8> },
    RemoveTarget { part: u16 },
    Rewrite { side: u8, id: u16, form: u8 },
}

impl Request {
    /// The request at the head of these bytes, and its length; nothing if its mark is unknown or
    /// it is cut short.
    pub fn first(bytes: &[u8]) -> Option<(Request, usize)> {
        let number = |at: usize| Some(u16::from_be_bytes(*bytes.get(at..)?.first_chunk()?));
        let letter = |at: usize| bytes.get(at).copied();
        match bytes.get(..2)? {
            b"SP" => {
                let (part, source_cut, target_cut) = (number(2)?, number(4)?, number(6)?);
                let new_id = number(8)?;
                Some((Request::Split { part, source_cut, target_cut, new_id }, 10))
            }
            b"JN" => Some((Request::Join { part: number(2)? }, 4)),
            b"ST" => {
                let length = 7 + usize::from(number(5)?);
                let content = bytes.get(7..length)?.to_vec();
                Some((Request::SetTarget { part: number(2)?, state: letter(4)?, content }, length))
            }
            b"RT" => Some((Request::RemoveTarget { part: number(2)? }, 4)),
            b"RW" => {
                let (side, id, form) = (letter(2)?, number(3)?, letter(5)?);
                Some((Request::Rewrite { side, id, form }, 6))
            }
            _ => None,
        }
    }

    /// Its bytes in a job. A content has at most 65,535 bytes, so many as its length can say.
    pub fn bytes(&self) -> Vec<u8> {
        match self {
            Request::Split { part, source_cut, target_cut, new_id } => {
                let fields =
                    [part, source_cut, target_cut, new_id].map(|field| field.to_be_bytes());
                [b"SP".as_slice(), fields.as_flattened()].concat()
            }
            Request::Join { part } => [*b"JN", part.to_be_bytes()].concat(),
            Request::SetTarget { part, state, content } => {
                let length = u16::try_from(content.len()).expect("at most 65,535 bytes");
                let (part, length) = (part.to_be_bytes(), length.to_be_bytes());
                [b"ST".as_slice(), &part, &[*state], &length, content].concat()
            }
            Request::RemoveTarget { part } => [*b"RT", part.to_be_bytes()].concat(),
            Request::Rewrite { side, id, form } => {
                [b"RW".as_slice(), &[*side], &id.to_be_bytes(), &[*form]].concat()
            }
        }
    }

    /// Its line; the records of a content stand on the lines below it.
    pub fn line(&self) -> String {
        match self {
            Request::Split { part, source_cut, target_cut, new_id } => {
                format!("SP {part} {source_cut} {target_cut} {new_id}")
            }
            Request::Join { part } => format!("JN {part}"),
            Request::SetTarget { part, state, .. } => {
                format!("ST {part} {}", letter_in_notation(*state))
            }
            Request::RemoveTarget { part } => format!("RT {part}"),
            Request::Rewrite { side, id, form } => {
                format!("RW {} {id} {}", letter_in_notation(*side), letter_in_notation(*form))
            }
        }
    }
}
