//! The end of a cut text.

use super::before::Before;
use super::shown::short;
use super::Finding;

pub fn finding(before: &Before) -> Finding {
    Finding { shown: "(the text ends here)".into(), wrong: cut(before) }
}

/// Inside of what the text ends.
fn cut(before: &Before) -> String {
    if before.in_comment() {
        return "the text ends inside a comment".into();
    }
    if let Some(tag) = before.begun {
        return format!("the text ends inside a tag: {}", short(tag));
    }
    let run = before.run;
    if let Some(reference) = begun_reference(run).filter(|_| before.takes_text()) {
        return format!("the text ends inside a reference: {}", short(reference));
    }
    if std::str::from_utf8(run).is_err_and(|error| error.error_len().is_none()) {
        return "the text ends inside a UTF-8 character".into();
    }
    if before.open.names.is_empty() {
        return "the text ends before a unit begins".into();
    }
    format!("the text ends before the unit is closed (open are {})", before.open.names.join(", "))
}

/// The last reference of a run, if it has no `;` yet.
fn begun_reference(run: &[u8]) -> Option<&[u8]> {
    let at = run.iter().rposition(|byte| *byte == b'&')?;
    Some(&run[at..]).filter(|reference| !reference.contains(&b';'))
}
