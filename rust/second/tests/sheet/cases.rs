//! What is delicate in a part, in a column, and where a row of it ends.

use std::collections::BTreeSet;

use second::operations::content::is_accent;
use second::record::Inline;
use second::table::{Part, PartKind};

use super::reading::{Form, Row};

pub fn in_part(part: &Part, source: &[Row], target: &[Row]) -> Vec<String> {
    let digits = if part.id == 0 { 0 } else { part.id.to_string().len() };
    let mut cases = vec![format!("id of {digits} digits")];
    let mut add_if = |holds: bool, case: &str| cases.extend(holds.then(|| case.to_string()));
    add_if(part.id == 65535, "id 65535");
    match part.kind {
        PartKind::Segment { state, .. } => add_if(true, &format!("state {}", state as char)),
        PartKind::Ignorable => {
            add_if(true, "an ignorable");
            add_if(part.target.is_some(), "an ignorable with target");
        }
    }
    add_if(part.target.is_none(), "no target");
    add_if(part.target.as_ref().is_some_and(|target| target.content.is_empty()), "an empty target");
    let (source, target) = (filled(source), filled(target));
    add_if(source == 0 && target == 0, "no item in either column");
    add_if(source == target && source > 1, "as many rows in both columns, several");
    add_if(source.max(target) >= 100, "100 rows");
    cases
}

/// How many rows have items.
fn filled(rows: &[Row]) -> usize {
    rows.iter().filter(|row| !row.here.is_empty()).count()
}

fn cells(forms: &[Form]) -> usize {
    forms.iter().map(|form| form.cells.len()).sum()
}

pub fn in_column<'a>(rows: &'a [Row], other: &[Row]) -> BTreeSet<&'a str> {
    let filled_rows: Vec<usize> =
        rows.iter().map(|row| cells(row.here)).take(filled(rows)).collect();
    let mut cases = BTreeSet::from([match filled_rows[..] {
        [] => "no item",
        [33] => "a full row and no more",
        [33, 1] => "a full row and one cell",
        _ => "other rows",
    }]);
    cases.extend((filled(rows) > filled(other)).then_some("more rows than the other column"));
    cases.extend(rows.iter().flat_map(|row| row.here).map(|form| of_item(&form.item)));
    cases
}

fn of_item(item: &Inline) -> &str {
    match (item, item.mark()) {
        (Inline::Text(text), _) => match &text[..] {
            b"\t" => "a tab",
            b"\n" => "a line feed",
            b"\r" => "a return",
            [_] => "a character of 1 byte",
            [_, _] => "a character of 2 bytes",
            [_, _, _] => "a character of 3 bytes",
            _ => "a character of 4 bytes",
        },
        (_, Some(mark)) => std::str::from_utf8(mark).expect("ASCII"),
        _ => "CP",
    }
}

/// A marker as its shape and the digits of its id.
fn marker(form: &Form) -> Option<String> {
    let shape = match form.item.mark()? {
        b"PH" => "standalone",
        b"PO" | b"SC" | b"IS" | b"MO" | b"SM" => "start",
        _ => "end",
    };
    Some(format!("{shape} of {} digits", form.item.id()?.to_string().len()))
}

pub fn at_row_end(row: &Row) -> Vec<String> {
    let left = 33 - cells(row.here);
    let mut cases = Vec::new();
    let last = row.here.last().filter(|_| left == 0).and_then(marker);
    cases.extend(last.map(|marker| format!("{marker} ends with its row")));
    let Some(next) = row.left.first() else { return cases };
    match marker(next) {
        None => cases.push("a full row, then a character".into()),
        Some(_) if left == 0 => cases.push("a full row, then a marker".into()),
        Some(marker) => {
            cases.push(format!("{marker} does not fit"));
            cases.extend(moved(row, next, left).into_iter().map(String::from));
        }
    }
    cases.extend(is_accent(&next.item).then(|| "an accent begins a row".into()));
    cases
}

/// Where a marker leaves so many cells of a row blank.
fn moved(row: &Row, next: &Form, left: usize) -> Vec<&'static str> {
    let later = row.left.get(1).filter(|later| later.cells.len() <= left);
    let is_marker = |form: &Form| marker(form).is_some();
    let cases = [
        (next.cells.len() == left + 1, "a marker is one cell too long"),
        (left == 1, "a marker does not fit, one cell is left"),
        (
            later.is_some_and(|form| !is_marker(form)),
            "a marker does not fit, a later character would",
        ),
        (later.is_some_and(is_marker), "a marker does not fit, a later marker would"),
        (row.here.iter().all(is_marker), "a marker does not fit behind markers alone"),
    ];
    cases.into_iter().filter(|(holds, _)| *holds).map(|(_, case)| case).collect()
}
