//! The marks of a table and the fields behind them.

/// How a field is written in bytes and in notation.
#[derive(Clone, Copy, Debug, PartialEq, Eq)]
pub enum Field {
    /// Two bytes, in notation decimal.
    Number,
    Letter,
    /// A length of two bytes and the bytes of a text, in notation in quotation marks.
    Text,
    /// Four bytes, a code point, in notation in hexadecimal.
    Point,
}

use Field::{Letter, Number, Point, Text};

const CODE: &[Field] = &[Number, Number, Number, Letter, Letter, Letter, Letter];

/// In document 01's sequence.
const RECORDS: [(&str, &[Field]); 18] = [
    ("UN", &[Letter]),
    ("UE", &[]),
    ("SG", &[Number, Letter, Letter]),
    ("IG", &[Number]),
    ("TG", &[Number]),
    ("TX", &[Text]),
    ("CP", &[Point]),
    ("PH", CODE),
    ("PO", CODE),
    ("PC", CODE),
    ("SC", CODE),
    ("EC", CODE),
    ("IS", CODE),
    ("IE", CODE),
    ("MO", &[Number, Letter]),
    ("SM", &[Number, Letter]),
    ("MC", &[Number]),
    ("EM", &[Number]),
];

/// Whether a byte can stand as a letter: `#` begins a comment, `"` a text.
pub fn is_letter(byte: u8) -> bool {
    byte.is_ascii_graphic() && !matches!(byte, b'#' | b'"')
}

/// The fields of a record with this mark, if it marks a record.
pub fn fields_of(mark: &str) -> Option<&'static [Field]> {
    RECORDS.iter().find(|(known, _)| *known == mark).map(|(_, fields)| *fields)
}

/// How many bytes a record with this mark has at least, if it marks a record; only the bytes of a
/// text are not counted.
pub fn least_length(mark: &str) -> Option<usize> {
    let length = |field: &Field| match field {
        Letter => 1,
        Number | Text => 2,
        Point => 4,
    };
    Some(mark.len() + fields_of(mark)?.iter().map(length).sum::<usize>())
}
