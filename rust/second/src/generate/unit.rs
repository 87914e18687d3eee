//! Valid units: generated, checked by the library, and repaired where a rule is broken.

use super::inline::placed;
use super::random::{Ids, Random};
use super::source::source;
use super::target::targets;
use crate::record::record_length;
use crate::rules::check;
use crate::table::{Part, PartKind, Placed, Target, Unit};

/// The records of a table, each as its bytes.
pub type RawRecords = Vec<Vec<u8>>;

/// A valid table.
pub fn valid_table(random: &mut Random) -> Vec<u8> {
    let parts = match random.below(100) {
        0..=2 => 9 + random.below(56),
        3..=40 => 1 + random.below(3),
        _ => 1 + random.below(8),
    };
    valid_table_of(random, parts)
}

/// A valid table of so many parts.
pub fn valid_table_of(random: &mut Random, parts: usize) -> Vec<u8> {
    loop {
        if let Some(table) = repaired(drafted(random, parts).write()) {
            return table;
        }
    }
}

/// A unit that mostly keeps the rules.
pub fn drafted(random: &mut Random, parts: usize) -> Unit {
    let mut ids = Ids::default();
    let source = source(random, &mut ids, parts);
    let targets = targets(random, &mut ids, &source);
    let mut unit = Unit { can_resegment: random.letter(b"YYYYYN"), parts: Vec::new() };
    for (content, target) in source.contents.into_iter().zip(targets) {
        let id = if random.chance(35) { 0 } else { ids.fresh(random) };
        let kind = match random.below(4) {
            0 => PartKind::Ignorable,
            _ => PartKind::Segment {
                can_resegment: random.letter(b"---YYYN"),
                state: random.letter(b"ITRF"),
            },
        };
        let target =
            target.map(|(order, content)| Target { offset: 0, order, content: placed(content) });
        unit.parts.push(Part { offset: 0, id, kind, source: placed(content), target });
    }
    unit
}

/// The contents of these parts, sources and targets.
pub fn contents(parts: &mut [Part]) -> impl Iterator<Item = &mut Vec<Placed>> {
    parts.iter_mut().flat_map(|part| {
        let target = part.target.as_mut().map(|target| &mut target.content);
        std::iter::once(&mut part.source).chain(target)
    })
}

/// The table with the records at fault taken out one by one (an overlap is allowed instead)
/// until the check accepts it; nothing if that is no way.
pub fn repaired(table: Vec<u8>) -> Option<Vec<u8>> {
    let mut records = raw_records(&table);
    for _ in 0..400 {
        let table = records.concat();
        let Err(refusal) = check(&table) else {
            return Some(table);
        };
        let blamed = index_at(&records, refusal.place)?;
        if records[blamed].len() < 4 || matches!(&records[blamed][..2], b"SG" | b"IG" | b"TG") {
            return None;
        }
        if refusal.number == 9 {
            allow_overlap(&mut records, blamed);
        } else {
            records.remove(blamed);
        }
    }
    None
}

fn allow_overlap(records: &mut RawRecords, blamed: usize) {
    let id = records[blamed][2..4].to_vec();
    for record in records.iter_mut() {
        if record.len() == 12
            && &record[..2] != b"PH"
            && &record[..2] != b"TX"
            && record[2..4] == id
        {
            record[10] = b'Y';
        }
    }
}

pub fn raw_records(bytes: &[u8]) -> RawRecords {
    let mut records = Vec::new();
    let mut offset = 0;
    while let Some(length) = record_length(bytes, offset) {
        records.push(bytes[offset..offset + length].to_vec());
        offset += length;
    }
    records
}

fn index_at(records: &RawRecords, place: usize) -> Option<usize> {
    let mut offset = 0;
    records.iter().position(|record| {
        let here = offset == place;
        offset += record.len();
        here
    })
}
