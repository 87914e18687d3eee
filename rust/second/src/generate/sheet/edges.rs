//! Every marker at every cell about a row's end, in both columns.

use super::{SheetJob, SheetKind};
use crate::generate::cuts::{code, text};
use crate::record::Mark;
use crate::sheet::sheet;

/// Of one to five digits.
const IDS: [u16; 5] = [7, 42, 365, 8_191, 65_535];

/// So many letters before the first marker: with the second, past a row's end.
const MOST_BEFORE: usize = 36;

/// Each marker, a pair or an annotation as its two halves.
const MARKERS: [&[&Mark]; 7] = [
    &[b"PH"],
    &[b"IS"],
    &[b"IE"],
    &[b"PO", b"PC"],
    &[b"SC", b"EC"],
    &[b"MO", b"MC"],
    &[b"SM", b"EM"],
];

/// Each with an output just long enough.
pub fn sheet_edges() -> Vec<SheetJob> {
    let mut jobs = Vec::new();
    for (markers, id) in MARKERS.iter().flat_map(|markers| IDS.map(|id| (markers, id))) {
        for (before, between) in (0..=MOST_BEFORE).flat_map(|before| [(before, ""), (before, "y")])
        {
            let source = content(markers, id, before, between);
            let target = content(markers, id, before + 1, between);
            let input = [b"UNYSG\0\0-T", source.as_slice(), b"TG\0\x01", &target, b"UE"].concat();
            let room = sheet(&input, usize::MAX).expect("a valid unit").len();
            jobs.push(SheetJob { kind: SheetKind::Wrapped, room, input });
        }
    }
    jobs
}

/// Letters, the markers with a text between them, and one letter behind them.
fn content(markers: &[&Mark], id: u16, before: usize, between: &str) -> Vec<u8> {
    let mut content = if before > 0 { text(&"x".repeat(before)) } else { Vec::new() };
    for (place, mark) in markers.iter().enumerate() {
        if place > 0 && !between.is_empty() {
            content.extend(text(between));
        }
        content.extend(marker(mark, id));
    }
    content.extend(text("z"));
    content
}

fn marker(mark: &Mark, id: u16) -> Vec<u8> {
    let number = id.to_be_bytes();
    match mark {
        b"MO" | b"SM" => [mark.as_slice(), &number, b"-"].concat(),
        b"MC" | b"EM" => [mark.as_slice(), &number].concat(),
        b"PH" => code(mark, id, b"YY-Y"),
        _ => code(mark, id, b"YYYY"),
    }
}
