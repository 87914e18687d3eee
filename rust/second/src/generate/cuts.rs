//! Small units split at every position: multi-byte text, accents, pairs and annotations across the
//! cut, with a target and without.

use crate::operations::content::items;
use crate::rules::check;

/// Every cut of every unit below, each followed by the join that undoes it.
pub fn every_cut() -> Vec<Vec<u8>> {
    small_units().iter().flat_map(|table| cuts_of(table)).collect()
}

fn cuts_of(table: &[u8]) -> Vec<Vec<u8>> {
    let unit = check(table).expect("the small units are valid");
    let mut jobs = Vec::new();
    for (index, part) in unit.parts.iter().enumerate() {
        let source_items = items(&part.source).len();
        let target_items = part.target.as_ref().map_or(0, |target| items(&target.content).len());
        for source_cut in 0..=source_items + 1 {
            for target_cut in 0..=target_items + 1 {
                let number = index as u16 + 1;
                let mut job = table.to_vec();
                job.extend(b"SP");
                for field in [number, source_cut as u16, target_cut as u16, 900] {
                    job.extend(field.to_be_bytes());
                }
                job.extend(b"JN");
                job.extend(number.to_be_bytes());
                jobs.push(job);
            }
        }
    }
    jobs
}

pub fn text(text: &str) -> Vec<u8> {
    let mut record = b"TX".to_vec();
    record.extend((text.len() as u16).to_be_bytes());
    record.extend(text.as_bytes());
    record
}

pub fn code(mark: &[u8; 2], id: u16, letters: &[u8; 4]) -> Vec<u8> {
    [mark.as_slice(), &id.to_be_bytes(), &[0, 0, 0, 0], letters].concat()
}

fn segment(id: u8) -> Vec<u8> {
    vec![b'S', b'G', 0, id, b'-', b'T']
}

fn target(order: u8) -> Vec<u8> {
    vec![b'T', b'G', 0, order]
}

/// A unit of one part without target.
fn alone(content: &[u8]) -> Vec<u8> {
    [b"UNY".to_vec(), segment(1), content.to_vec(), b"UE".to_vec()].concat()
}

/// A unit of three parts with targets. The one in the middle is cut; orders above its own rise.
fn among(source: &[u8], translated: &[u8]) -> Vec<u8> {
    [
        b"UNY".to_vec(),
        [segment(1), text("A"), target(3), text("B")].concat(),
        [segment(2), source.to_vec(), target(2), translated.to_vec()].concat(),
        [b"IG\0\0".to_vec(), text(" "), target(1), text("_")].concat(),
        b"UE".to_vec(),
    ]
    .concat()
}

fn pair(content: Vec<u8>) -> Vec<u8> {
    [code(b"PO", 5, b"YYYY"), content, code(b"PC", 5, b"YYYY")].concat()
}

fn annotation(content: Vec<u8>) -> Vec<u8> {
    [b"MO\0\x06-".to_vec(), content, b"MC\0\x06".to_vec()].concat()
}

/// Accents first in a content, behind a letter, behind each other, behind a `CP` and behind
/// markers; U+02FF and U+0370 are none.
fn accents() -> Vec<u8> {
    [
        text("\u{301}e\u{300}\u{36F}"),
        b"CP\0\0\0\x01".to_vec(),
        text("\u{302}a\u{2FF}\u{370}"),
        pair(text("\u{301}")),
        text("\u{36F}"),
    ]
    .concat()
}

fn small_units() -> Vec<Vec<u8>> {
    // One to four bytes a character, and characters that XML forbids.
    let mixed = [text("aé€😀b"), b"CP\0\0\0\x01".to_vec(), text("ß")].concat();
    let nested = pair([text("x"), annotation(text("yé")), code(b"PH", 7, b"YN-Y")].concat());
    let crossed = [
        code(b"SC", 5, b"YYYY"),
        b"SM\0\x06-".to_vec(),
        text("q"),
        code(b"EC", 5, b"YYYY"),
        text("r"),
        b"EM\0\x06".to_vec(),
    ]
    .concat();
    vec![
        alone(&mixed),
        alone(&nested),
        alone(&crossed),
        alone(&accents()),
        among(&mixed, &text("€é")),
        among(&nested, &nested),
        among(&crossed, &crossed),
        among(&pair(text("ab")), &pair(vec![])),
        among(&text("ab"), &[]),
        among(&accents(), &accents()),
        among(&text("ab"), &accents()),
    ]
}
