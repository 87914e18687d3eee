//! Document 02, order 5, "A review sheet": "pages of 79 columns: part position 3, id 5, state 1,
//! source 33, target 33, one blank between columns."

use crate::operations::content::items;
use crate::operations::Outcome;
use crate::record::{Annotation, Code, Inline};
use crate::rules::check;
use crate::table::{Part, PartKind, Placed};
use crate::Refusal;

/// The cells of the first three columns and the blanks between them.
const HEAD: usize = 3 + 1 + 5 + 1 + 1;

/// The cells of the source column and of the target column.
const CELLS: usize = 33;

/// The sheet of the table's unit. Its length is bound by the room alone.
pub fn sheet(table: &[u8], room: usize) -> Outcome {
    let unit = check(table)?;
    let parts = unit.parts.iter().zip(1..);
    let sheet: String = parts.map(|(part, position)| rows(part, position)).collect();
    if sheet.len() > room {
        return Err(Refusal::without_place(15));
    }
    Ok(sheet.into_bytes())
}

/// "a part has only the rows it needs, at least one. Each row ends in a line feed". The formatter
/// counts code points and pads with blanks.
fn rows(part: &Part, position: usize) -> String {
    let source = column(&part.source);
    let target = part.target.as_ref().map_or(Vec::new(), |target| column(&target.content));
    let mut rows = String::new();
    for row in 0..source.len().max(target.len()).max(1) {
        // "Later rows of a part leave the first three columns blank."
        let head = if row == 0 { head(part, position) } else { String::new() };
        let [source, target] = [&source, &target].map(|column| column.get(row).map_or("", |r| r));
        rows += &format!("{head:HEAD$} {source:CELLS$} {target:CELLS$}\n");
    }
    rows
}

/// "Positions and ids are right-aligned decimals, id 0 blank; an ignorable's state is blank."
fn head(part: &Part, position: usize) -> String {
    let id = if part.id == 0 { String::new() } else { part.id.to_string() };
    let state = match part.kind {
        PartKind::Segment { state, .. } => char::from(state),
        PartKind::Ignorable => ' ',
    };
    format!("{position:>3} {id:>5} {state}")
}

/// The rows of a content, without padding: "A marker that doesn't fit goes to the next row whole",
/// and "A column's row takes all that fits".
fn column(content: &[Placed]) -> Vec<String> {
    let mut rows: Vec<String> = Vec::new();
    for item in items(content) {
        let shown = shown(&item);
        match rows.last_mut() {
            Some(row) if cells(row) + cells(&shown) <= CELLS => *row += &shown,
            _ => rows.push(shown),
        }
    }
    rows
}

/// "A code point takes one cell".
fn cells(text: &str) -> usize {
    text.chars().count()
}

/// An item's shown form: "tab, line feed and return show as a full stop, `CP` as `#`. A standalone
/// code of id 7 shows as `{7}`, a start `{7`, an end `7}`; isolated ones and annotations likewise."
fn shown(item: &Inline) -> String {
    match item {
        Inline::Text(text) => match text.as_slice() {
            b"\t" | b"\n" | b"\r" => ".".to_string(),
            code_point => String::from_utf8_lossy(code_point).into_owned(),
        },
        Inline::Character(_) => "#".to_string(),
        Inline::Code(Code { mark, id, .. }) | Inline::Annotation(Annotation { mark, id, .. }) => {
            match mark {
                b"PH" => format!("{{{id}}}"),
                b"PO" | b"SC" | b"IS" | b"MO" | b"SM" => format!("{{{id}"),
                _ => format!("{id}}}"),
            }
        }
    }
}
