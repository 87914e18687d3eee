//! Where the records of the table that a text is read to stand in the text.

use notation::least_length;

use super::before::Open;
use super::pieces::{first_piece, Form, Piece};
use super::references::first_reference;

/// The place, in a text without a fault, of the tag or the text that the record at this offset of
/// the table was read from.
pub fn place_of_record(text: &[u8], offset: usize) -> Option<usize> {
    let (mut at, mut table, mut in_text) = (0, 0, false);
    let mut open = Open::default();
    while let Some((piece, length)) = first_piece(&text[at..]) {
        match piece {
            Piece::Comment => {}
            Piece::Run(run) if open.takes_text() => {
                table += if in_text { 0 } else { length_of("TX") } + text_length(run);
                in_text = true;
            }
            Piece::Run(_) => {}
            Piece::Tag(form, name) => {
                table += records_length(form, name);
                in_text = false;
                open.pass(form, name);
            }
        }
        if offset < table {
            return Some(at);
        }
        at += length;
    }
    None
}

fn length_of(mark: &str) -> usize {
    least_length(mark).unwrap_or(0)
}

/// How many bytes of the table a tag is read to.
fn records_length(form: Form, name: &str) -> usize {
    let (begins, ends) = match name {
        "unit" => ("UN", "UE"),
        "segment" => ("SG", ""),
        "ignorable" => ("IG", ""),
        "target" => ("TG", ""),
        "cp" => ("CP", ""),
        "ph" => ("PH", ""),
        "pc" => ("PO", "PC"),
        "sc" => ("SC", ""),
        "ec" => ("EC", ""),
        "mrk" => ("MO", "MC"),
        "sm" => ("SM", ""),
        "em" => ("EM", ""),
        _ => ("", ""),
    };
    match form {
        Form::Start => length_of(begins),
        Form::End => length_of(ends),
        Form::Short => length_of(begins) + length_of(ends),
    }
}

/// How many bytes of text a run is read to: a reference is its character, CR LF is a line feed.
fn text_length(mut run: &[u8]) -> usize {
    let mut length = 0;
    while !run.is_empty() {
        let (read, taken) = match run {
            [b'\r', b'\n', ..] => (1, 2),
            [b'&', ..] => first_reference(run).map_or((1, 1), |(c, taken)| (c.len_utf8(), taken)),
            _ => (1, 1),
        };
        length += read;
        run = &run[taken..];
    }
    length
}
