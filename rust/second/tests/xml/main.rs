//! Order 1 of document 02, "Units as XML": the points of the readings by their numbers, the round
//! trip, the generator, and a parser that is not ours.

mod events;
mod expat;
mod faults;
mod fields;
mod generator;
mod round_trip;
mod structure;
mod writer;

use second::operations::Outcome;
use second::xml::{read_xml, write_xml};
use second::{Refusal, MOST_BYTES};

const TO_SOURCE: &str = r#"<unit id="1"><segment><source>"#;
const FROM_SOURCE: &str = "</source></segment></unit>";

fn read(text: &[u8]) -> Outcome {
    read_xml(text, MOST_BYTES)
}

fn refused(number: u16, place: usize) -> Outcome {
    Err(Refusal { number, place })
}

/// The text of both pieces is 22 where the second begins.
fn blames(before: &str, rest: impl AsRef<[u8]>) {
    let text = [before.as_bytes(), rest.as_ref()].concat();
    assert_eq!(read(&text), refused(22, before.len()), "{}", text.escape_ascii());
}

/// In a source, whatever stands before and behind it.
fn blames_in_source(before: &str, rest: impl AsRef<[u8]>) {
    let rest = rest.as_ref();
    blames(&format!("{TO_SOURCE}{before}"), rest);
    blames(&format!("{TO_SOURCE}{before}"), [rest, FROM_SOURCE.as_bytes()].concat());
}

/// The text is 22 at its end.
fn cut(text: impl AsRef<[u8]>) {
    let text = text.as_ref();
    assert_eq!(read(text), refused(22, text.len()), "{}", text.escape_ascii());
}

fn cut_in_source(content: impl AsRef<[u8]>) {
    cut([TO_SOURCE.as_bytes(), content.as_ref()].concat());
}

fn in_source(content: &str) -> Vec<u8> {
    format!("{TO_SOURCE}{content}{FROM_SOURCE}").into_bytes()
}

/// The content in a source is read as these records.
fn reads(content: &str, records: &[u8]) {
    let table = [b"UNYSG\0\0-I", records, b"UE"].concat();
    assert_eq!(read(&in_source(content)), Ok(table), "{content}");
}
