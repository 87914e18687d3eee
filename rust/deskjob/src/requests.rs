//! A request, and the proved operation that it asks for.

use notation::Request;
use xliff_desk::{Answer, Grant};

/// The answer of the proved operation; its result stands at the head of `out`.
pub fn ask(request: &Request, table: &[u8], out: &mut [u8]) -> Answer {
    match request {
        Request::Split { part, source_cut, target_cut, new_id } => {
            xliff_desk::split(table, *part, *source_cut, *target_cut, *new_id, out)
        }
        Request::Join { part } => xliff_desk::join(table, *part, out),
        Request::SetTarget { part, state, content } => {
            xliff_desk::set_target(table, *part, *state, content, out)
        }
        Request::RemoveTarget { part } => xliff_desk::remove_target(table, *part, out),
        Request::Rewrite { side, id, form } => xliff_desk::rewrite(table, *side, *id, *form, out),
    }
}

/// The same with a grant, if there is one.
pub fn ask_within(grant: Option<Grant>, request: &Request, table: &[u8], out: &mut [u8]) -> Answer {
    match grant {
        None => ask(request, table, out),
        Some(grant) => xliff_desk::granted_call(grant, table, &request.bytes(), out),
    }
}

pub fn in_words(request: &Request) -> String {
    match request {
        Request::Split { part, source_cut, target_cut, new_id } => format!(
            "split part {part} at source item {source_cut} and target item {target_cut}, \
             new id {new_id}"
        ),
        Request::Join { part } => format!("join part {part} with the next"),
        Request::SetTarget { part, state, content } => format!(
            "set the target of part {part}, state {}, content of {} bytes",
            *state as char,
            content.len()
        ),
        Request::RemoveTarget { part } => format!("remove the target of part {part}"),
        Request::Rewrite { side, id, form } => {
            format!("rewrite id {id} on side {} to form {}", *side as char, *form as char)
        }
    }
}
