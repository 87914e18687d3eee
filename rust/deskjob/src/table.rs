//! A table as lines.

use notation::records;
use xliff_desk::Refusal;

pub fn texts(table: &[u8]) -> Vec<String> {
    records(table).into_iter().map(|line| line.text).collect()
}

/// Its lines, set in.
pub fn set_in(table: &[u8]) -> String {
    texts(table).iter().map(|line| format!("  {line}\n")).collect()
}

/// A refused table, `>` before the record at the place of the refusal, or behind the last one
/// where a record is missing.
pub fn blamed(table: &[u8], refusal: Refusal) -> String {
    let mut shown = format!("{refusal}\n");
    for line in records(table) {
        let mark = if line.offset == refusal.place { '>' } else { ' ' };
        shown += &format!("  {mark} {}\n", line.text);
    }
    if refusal.place == table.len() {
        shown += "  > (the table ends here)\n";
    }
    shown
}
