//! The line protocol of vectors/README.md: a line `OP ARGS` asks, a line answers.

use crate::desk::{desk, from_hexadecimal, hexadecimal, read_request, Request};
use crate::grant::{granted_call, view, Grant};
use crate::operations::Outcome;
use crate::rules::check;
use crate::sheet::sheet;
use crate::xml::{read_xml, write_xml};
use crate::Refusal;

/// The second implementation's answer to a line; nothing if it is not of the protocol.
pub fn answer(line: &str) -> Option<String> {
    let words: Vec<&str> = line.split(' ').collect();
    Some(match words[..] {
        ["check", table] => {
            let table = bytes(table)?;
            check(&table).map_or_else(refused, |_| format!("OK {}", table.len()))
        }
        ["job", job] => format!("TEXT {}", in_digits(&desk(&bytes(job)?))),
        ["call", room, table, request] => {
            let (room, table) = (number(room)?, bytes(table)?);
            requested(&bytes(request)?, |request| request.run(&table, room))
        }
        ["xmlread", room, text] => answered(read_xml(&bytes(text)?, number(room)?)),
        ["xmlwrite", room, table] => answered(write_xml(&bytes(table)?, number(room)?)),
        ["sheet", room, table] => answered(sheet(&bytes(table)?, number(room)?)),
        ["view", role, positions, room, table] => {
            let grant = Grant { role: letter(role)?, positions: &bytes(positions)? };
            answered(view(&grant, &bytes(table)?, number(room)?))
        }
        ["grantcall", role, positions, room, table, request] => {
            let grant = Grant { role: letter(role)?, positions: &bytes(positions)? };
            let (room, table) = (number(room)?, bytes(table)?);
            requested(&bytes(request)?, |request| granted_call(&grant, &table, request, room))
        }
        _ => return None,
    })
}

/// `OK n HEX` or `NO number place`.
pub fn answered(outcome: Outcome) -> String {
    match outcome {
        Ok(result) => format!("OK {} {}", result.len(), in_digits(&result)),
        Err(refusal) => refused(refusal),
    }
}

/// "Bytes are upper hexadecimal, `-` for none".
pub fn in_digits(bytes: &[u8]) -> String {
    if bytes.is_empty() {
        return "-".into();
    }
    hexadecimal(bytes)
}

fn bytes(word: &str) -> Option<Vec<u8>> {
    from_hexadecimal(if word == "-" { "" } else { word })
}

fn number(word: &str) -> Option<usize> {
    word.parse().ok()
}

fn letter(word: &str) -> Option<u8> {
    match word.as_bytes() {
        [letter] => Some(*letter),
        _ => None,
    }
}

/// A request that is unreadable, or has bytes behind it, is `BAD`.
pub fn requested(bytes: &[u8], run: impl FnOnce(&Request) -> Outcome) -> String {
    match read_request(bytes, 0) {
        Some((request, length)) if length == bytes.len() => answered(run(&request)),
        _ => "BAD".to_string(),
    }
}

fn refused(refusal: Refusal) -> String {
    format!("NO {} {}", refusal.number, refusal.place)
}
