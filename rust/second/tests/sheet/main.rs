//! Order 5 of document 02, "A review sheet": its words one by one with rows written by hand; the
//! generated sheets read back, and what is delicate in them counted.

mod cases;
mod columns;
#[path = "../shared/counts.rs"]
mod counted;
mod counts;
mod markers;
mod reading;

use second::operations::Outcome;
use second::sheet::sheet;
use second::Refusal;

/// Enough for the sheets here.
const ROOM: usize = 10_000;

/// A unit of these parts.
fn unit(parts: &[&[u8]]) -> Vec<u8> {
    [b"UNY", parts.concat().as_slice(), b"UE"].concat()
}

fn text(text: &str) -> Vec<u8> {
    [b"TX".as_slice(), &(text.len() as u16).to_be_bytes(), text.as_bytes()].concat()
}

fn code(mark: &[u8; 2], id: u16) -> Vec<u8> {
    let letters = if mark == b"PH" { b"YY-Y" } else { b"YYYY" };
    [mark.as_slice(), &id.to_be_bytes(), b"\0\0\0\0", letters].concat()
}

/// So many letters of the alphabet, which begins anew behind z.
fn letters(count: usize) -> String {
    ('a'..='z').cycle().take(count).collect()
}

/// The sheet of a unit with room enough.
fn printed(parts: &[&[u8]]) -> String {
    String::from_utf8(sheet(&unit(parts), ROOM).expect("a valid unit")).expect("UTF-8")
}

/// A row from what stands in its columns: position, id and state, then source and target, padded.
fn row(head: &str, source: &str, target: &str) -> String {
    let padded = |text: &str, cells: usize| {
        let blanks = cells.checked_sub(text.chars().count()).expect("no more than the column has");
        [text, &" ".repeat(blanks)].concat()
    };
    format!("{} {} {}\n", padded(head, 11), padded(source, 33), padded(target, 33))
}

/// A segment without id, of this source and target, alone in its unit, has these rows.
fn shows(source: &[u8], target: &[u8], rows: &[(&str, &str)]) {
    let target: &[u8] = if target.is_empty() { b"" } else { &[b"TG\0\x01", target].concat() };
    let heads = std::iter::once("  1       T").chain(std::iter::repeat(""));
    let expected: String = heads.zip(rows).map(|(head, (s, t))| row(head, s, t)).collect();
    assert_eq!(printed(&[b"SG\0\0-T", source, target]), expected);
}

/// The same in the source and in the target.
fn shows_in_both(content: &[u8], rows: &[&str]) {
    shows(content, b"", &rows.iter().map(|row| (*row, "")).collect::<Vec<_>>());
    shows(b"", content, &rows.iter().map(|row| ("", *row)).collect::<Vec<_>>());
    shows(content, content, &rows.iter().map(|row| (*row, *row)).collect::<Vec<_>>());
}

fn refused(number: u16, place: usize) -> Outcome {
    Err(Refusal { number, place })
}

/// "15 as elsewhere": an output shorter than the sheet in bytes.
#[test]
fn an_output_too_short() {
    // three characters of one, two and four bytes: 79 cells in 83 bytes, and the line feed
    let table = unit(&[b"SG\0\0-I", &text("aé😀")]);
    let expected = row("  1       I", "aé😀", "").into_bytes();
    assert_eq!(expected.len(), 84);
    for room in [84, 85, ROOM, usize::MAX] {
        assert_eq!(sheet(&table, room).as_ref(), Ok(&expected));
    }
    for room in [0, 1, 79, 80, 83] {
        assert_eq!(sheet(&table, room), refused(15, 0));
    }
}

/// A sheet may be longer than any table: 64 parts of two rows.
#[test]
fn a_sheet_has_no_limit_of_its_own() {
    let part = [b"IG\0\0".to_vec(), text(&letters(34))].concat();
    let table = unit(&[part.as_slice(); 64]);
    assert_eq!(sheet(&table, 10_240).map(|sheet| sheet.len()), Ok(128 * 80));
    assert_eq!(sheet(&table, 10_239), refused(15, 0));
}

/// The table is checked first, with its place.
#[test]
fn a_refused_table() {
    for room in [0, ROOM] {
        assert_eq!(sheet(b"UNYUE", room), refused(2, 3));
        assert_eq!(sheet(b"", room), refused(2, 0));
        assert_eq!(sheet(&unit(&[b"IG\0\x05", b"IG\0\x05"]), room), refused(6, 7));
        assert_eq!(sheet(&unit(&[b"IG\0\0", &text("a"), &text("b")]), room), refused(3, 12));
        assert_eq!(sheet(&[b' '; 8193], room), refused(1, 0));
    }
}
