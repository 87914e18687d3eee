//! Single changes to the records of a table, each at or behind a given record.

use super::inline::{annotation, character, code, text};
use super::random::Random;
use super::unit::RawRecords;
use crate::record::Mark;

fn is_code(record: &[u8]) -> bool {
    record.len() == 12
        && matches!(&record[..2], b"PH" | b"PO" | b"PC" | b"SC" | b"EC" | b"IS" | b"IE")
}

/// Where the letters of a record stand, with letters that fit there or nearly.
fn letters(record: &[u8]) -> Vec<(usize, &'static [u8])> {
    match &record[..2] {
        b"UN" => vec![(2, b"YN-")],
        b"SG" => vec![(4, b"YN-"), (5, b"ITRF-")],
        b"MO" | b"SM" => vec![(4, b"YN-F")],
        _ if is_code(record) => {
            vec![(8, b"YN"), (9, b"YN"), (10, b"YN-"), (11, b"YFN"), (11, b"YFN-")]
        }
        _ => vec![],
    }
}

pub fn change_letter(random: &mut Random, record: &mut [u8]) {
    let letters = letters(record);
    if letters.is_empty() {
        return;
    }
    let &(place, choices) = random.pick(&letters);
    record[place] = match random.below(20) {
        0 => random.below(256) as u8,
        _ => random.letter(choices),
    };
}

/// Changes an id, an order or a reference: to another record's number, one more, 0 or any.
pub fn change_number(random: &mut Random, records: &mut RawRecords, at: usize) {
    let number_at = |record: &Vec<u8>| [record[2], record[3]];
    let others: Vec<[u8; 2]> = records
        .iter()
        .filter(|record| record.len() >= 4 && !matches!(&record[..2], b"TX" | b"CP"))
        .map(number_at)
        .collect();
    let record = &mut records[at];
    if record.len() < 4 || &record[..2] == b"CP" || others.is_empty() {
        return;
    }
    let place = if is_code(record) { *random.pick(&[2, 2, 4, 6]) } else { 2 };
    let old = u16::from_be_bytes([record[place], record[place + 1]]);
    let new = match random.below(8) {
        0 => [0, 0],
        1 => [random.below(256) as u8, random.below(256) as u8],
        2 => old.wrapping_add(1).to_be_bytes(),
        _ => *random.pick(&others),
    };
    record[place..place + 2].copy_from_slice(&new);
}

/// `PO` to `SC` and the like, and back.
pub fn twin_mark(record: &mut [u8]) {
    let twins: [(&Mark, &Mark); 7] = [
        (b"PO", b"SC"),
        (b"PC", b"EC"),
        (b"MO", b"SM"),
        (b"MC", b"EM"),
        (b"IS", b"IE"),
        (b"SG", b"CP"),
        (b"IG", b"TG"),
    ];
    for (one, two) in twins {
        if &record[..2] == one {
            record[..2].copy_from_slice(two);
        } else if &record[..2] == two {
            record[..2].copy_from_slice(one);
        }
    }
}

pub fn insert_record(random: &mut Random, records: &mut RawRecords, at: usize) {
    let id = 1 + random.below(40) as u16;
    let marks: [&Mark; 7] = [b"PH", b"PO", b"PC", b"SC", b"EC", b"IS", b"IE"];
    let annotations: [&Mark; 4] = [b"MO", b"MC", b"SM", b"EM"];
    let inline = match random.below(6) {
        0 => text(random),
        1 => character(random),
        2 => {
            let mark = *random.pick(&annotations);
            annotation(mark, id, random)
        }
        _ => {
            let mark = *random.pick(&marks);
            code(mark, id, random)
        }
    };
    let mut bytes = Vec::new();
    inline.write(&mut bytes);
    let other: [&[u8]; 5] = [b"TG\0\x01", b"SG\0\0-I", b"IG\0\0", b"UE", b"UNY"];
    if random.chance(20) {
        bytes = random.pick(&other).to_vec();
    }
    records.insert(at, bytes);
}

/// One more half of an id that is there, anywhere behind.
pub fn insert_half_of_id(random: &mut Random, records: &mut RawRecords, at: usize) {
    let record = &records[at];
    if record.len() < 4 || !(is_code(record) || matches!(&record[1..2], b"M" | b"C" | b"O")) {
        return;
    }
    let id = [record[2], record[3]];
    let halves: [(&Mark, &[u8]); 8] = [
        (b"SC", b"\0\0\0\0YYYY"),
        (b"EC", b"\0\0\0\0YYYY"),
        (b"PO", b"\0\0\0\0YYYY"),
        (b"PC", b"\0\0\0\0YYYY"),
        (b"SM", b"-"),
        (b"EM", b""),
        (b"EM", b""),
        (b"MC", b""),
    ];
    let (mark, fields) = *random.pick(&halves);
    let place = at + random.below(records.len() - at);
    records.insert(place, [mark.as_slice(), &id, fields].concat());
}

/// Text of length 0, no UTF-8, a forbidden code point, a length that is wrong; a `CP` that is
/// allowed or too high. Another record takes a text before it.
pub fn spoil_text(random: &mut Random, records: &mut RawRecords, at: usize) {
    let spoiled: [&[u8]; 12] = [
        b"TX\0\0",
        b"TX\0\x01\xFF",
        b"TX\0\x02\xC0\x80",
        b"TX\0\x01\x0B",
        b"TX\0\x03\xED\xA0\x80",
        b"TX\0\x03\xEF\xBF\xBE",
        b"TX\0\x05a",
        b"TX\0\x02\xC3\xA9",
        b"CP\0\0\0A",
        b"CP\0\x11\0\0",
        b"CP\0\x10\xFF\xFF",
        b"CP\0\0\0\x7F",
    ];
    let wrong = random.pick(&spoiled).to_vec();
    let record = &mut records[at];
    match &record[..2] {
        b"TX" if record.len() > 4 && random.chance(40) => {
            let place = 4 + random.below(record.len() - 4);
            record[place] = random.below(256) as u8;
        }
        b"TX" | b"CP" => *record = wrong,
        _ => records.insert(at, wrong),
    }
}

/// The same letter in every code of one id, so that partners and sides stay equal.
pub fn change_letter_of_id(random: &mut Random, records: &mut RawRecords, at: usize) {
    if !is_code(&records[at]) {
        return;
    }
    let id = records[at][2..4].to_vec();
    let &(place, choices) = random.pick(&[(8, b"YN"), (9, b"YN"), (10, b"NN"), (11, b"FN")]);
    let letter = random.letter(choices);
    for record in records.iter_mut().filter(|r| is_code(r) && r[2..4] == id) {
        if place != 10 || &record[..2] != b"PH" {
            record[place] = letter;
        }
    }
}

/// The next half (and sometimes all behind it of that id) changes its class: a pair's half
/// becomes an annotation's and the reverse. An isolated start becomes an isolated end.
pub fn change_class_of_id(random: &mut Random, records: &mut RawRecords, at: usize) {
    let swappable = |record: &Vec<u8>| other_class(record).is_some();
    let Some(first) = records[at..].iter().position(swappable).map(|i| at + i) else {
        return;
    };
    let id = records[first][2..4].to_vec();
    let last = if random.chance(60) { first + 1 } else { records.len() };
    for record in &mut records[first..last] {
        if let Some(changed) = other_class(record).filter(|_| record[2..4] == id) {
            *record = changed;
        }
    }
}

fn other_class(record: &[u8]) -> Option<Vec<u8>> {
    let classes: [(&Mark, &Mark); 5] =
        [(b"PO", b"MO"), (b"PC", b"MC"), (b"SC", b"SM"), (b"EC", b"EM"), (b"IS", b"IE")];
    let id = record.get(2..4)?;
    let start_field: &[u8] = if matches!(&record[..2], b"PO" | b"SC") { b"Y" } else { b"" };
    classes.into_iter().find_map(|(code, other)| match &record[..2] {
        mark if mark == code && code == b"IS" => Some([other.as_slice(), &record[2..]].concat()),
        mark if mark == code => Some([other.as_slice(), id, start_field].concat()),
        mark if mark == other && other == b"IE" => Some([code.as_slice(), &record[2..]].concat()),
        mark if mark == other => Some([code.as_slice(), id, b"\0\0\0\0YYYY"].concat()),
        _ => None,
    })
}
