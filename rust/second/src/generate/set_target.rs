//! Set target requests: contents made from the old target, the source or another content.

use super::chains::{has_chains, has_leading, move_chains, spoil_chains};
use super::damage::bytes;
use super::inline::text;
use super::mutations::mutate;
use super::random::{Ids, Random};
use super::requests::part_number;
use super::source::Source;
use super::target::edit;
use super::unit::raw_records;
use crate::operations::content::gather;
use crate::record::Inline;
use crate::table::{Part, PartKind, Placed, Unit};

pub fn set_target_request(random: &mut Random, unit: &Unit) -> Vec<u8> {
    let suits = match random.below(10) {
        0..=2 => has_chains,
        3..=5 => has_leading,
        _ => |_: &[Inline]| true,
    };
    let number = part_number(random, unit, |part| suits(&inlines_of(old_content(part))));
    let part = unit.part(number).unwrap_or(&unit.parts[0]);
    let state = match (random.below(14), part.kind) {
        (0, _) => random.letter(b"-ITRFX\0"),
        (_, PartKind::Ignorable) => b'-',
        _ => random.letter(b"ITRF"),
    };
    let content = content(random, unit, part);
    let length = (content.len() as u16).to_be_bytes();
    [b"ST".as_slice(), &number.to_be_bytes(), &[state], &length, &content].concat()
}

/// The target, or the source if there is none.
fn old_content(part: &Part) -> &[Placed] {
    part.target.as_ref().map_or(&part.source, |target| &target.content)
}

fn content(random: &mut Random, unit: &Unit, part: &Part) -> Vec<u8> {
    let old = old_content(part);
    let chosen = match random.below(10) {
        0..=5 => old,
        6 | 7 => &part.source,
        8 => &random.pick(&unit.parts).source,
        _ => return odd_content(random, old),
    };
    let mut inlines = inlines_of(chosen);
    change_texts(random, &mut inlines);
    if random.chance(35) {
        let source = Source {
            contents: unit.parts.iter().map(|p| inlines_of(&p.source)).collect(),
            nested: Vec::new(),
        };
        let mut ids = ids_beside(random);
        edit(random, &mut ids, &source, &mut inlines);
    }
    match random.below(10) {
        0..=2 => move_chains(random, &mut inlines),
        3..=6 => spoil_chains(random, &mut inlines),
        _ => {}
    }
    let mut records = raw_records(&written(&gather(inlines)));
    if random.chance(35) {
        for _ in 0..1 + random.below(2) {
            mutate(random, &mut records);
        }
    }
    records.concat()
}

/// Contents that the content rules or a limit turn down, and the empty one.
fn odd_content(random: &mut Random, old: &[Placed]) -> Vec<u8> {
    match random.below(6) {
        0 => Vec::new(),
        1 => {
            let length = random.below(30);
            bytes(random, length)
        }
        2 => {
            let records = 1023 + random.below(4);
            let mut content = b"CP\0\0\0\x01".repeat(records);
            // Behind every second number of records a stray byte.
            content.extend(bytes(random, records % 2));
            content
        }
        3 => {
            let length = 8000 + random.below(600);
            let text = Inline::Text(vec![b'a'; length]);
            let mut content = written(old);
            text.write(&mut content);
            content
        }
        4 => {
            let mut content = written(old);
            content.truncate(random.below(content.len()));
            content
        }
        _ => {
            let others: [&[u8]; 4] = [b"UE", b"SG\0\0-I", b"TG\0\x01", b"UNY"];
            let mut content = written(old);
            content.extend(random.pick(&others).iter());
            content
        }
    }
}

/// Ids that start at a random place, so that they seldom meet those of the unit.
fn ids_beside(random: &mut Random) -> Ids {
    let mut ids = Ids::default();
    for _ in 0..random.below(60) {
        ids.fresh(random);
    }
    ids
}

fn change_texts(random: &mut Random, inlines: &mut [Inline]) {
    for inline in inlines {
        if matches!(inline, Inline::Text(_)) && random.chance(50) {
            *inline = text(random);
        }
    }
}

fn inlines_of(content: &[Placed]) -> Vec<Inline> {
    content.iter().map(|placed| placed.inline.clone()).collect()
}

pub fn written(content: &[Placed]) -> Vec<u8> {
    let mut bytes = Vec::new();
    content.iter().for_each(|placed| placed.inline.write(&mut bytes));
    bytes
}
