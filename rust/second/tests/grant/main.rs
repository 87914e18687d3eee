//! Order 6 of document 02, "Translators see their own parts": its words one by one on tables
//! written by hand; every grant of a small unit against a table of expectations; what a view keeps
//! secret; the generated jobs judged a second time, and what is delicate in them counted.

mod calls;
mod cases;
#[path = "../shared/counts.rs"]
mod counted;
mod counts;
mod expected;
mod judge;
mod secrecy;
mod small;
mod view_cases;
mod views;

use second::desk::read_request;
use second::grant::{granted_call, view, Grant};
use second::operations::Outcome;
use second::Refusal;

/// Enough for every table.
const ROOM: usize = 8192;

/// The view of the table for this role and these positions.
fn seen(role: u8, positions: &[u8], table: &[u8]) -> Outcome {
    view(&Grant { role, positions }, table, ROOM)
}

/// The answer to a request in the job's notation.
fn asked(role: u8, positions: &[u8], table: &[u8], request: &[u8], room: usize) -> Outcome {
    let (read, length) = read_request(request, 0).expect("a readable request");
    assert_eq!(length, request.len(), "bytes behind the request");
    granted_call(&Grant { role, positions }, table, &read, room)
}

fn refused(number: u16, place: usize) -> Outcome {
    Err(Refusal { number, place })
}
