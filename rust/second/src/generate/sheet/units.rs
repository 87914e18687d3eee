//! Units for sheets: ids of one to five digits, and texts that end about where a row ends.

use std::collections::HashMap;

use crate::generate::inline::{annotation, character, code};
use crate::generate::random::{Ids, Random};
use crate::generate::set_target::written;
use crate::generate::unit::{contents, valid_table_of};
use crate::operations::content::gather;
use crate::operations::hand_out;
use crate::record::Inline;
use crate::rules::check;
use crate::table::{Part, PartKind, Placed, Target, Unit};
use crate::MOST_BYTES;

/// Characters of one text: of one byte, of several, and such as a sheet shows otherwise or might
/// confuse with its own.
const CHARACTERS: [&str; 8] = [
    "abcdefghij",
    "abc def ",
    "aé漢😀",
    "e\u{301}\u{36F}",
    "😀\u{10FFFF}",
    "a\tb\nc\r",
    " {7}#.",
    "\u{7F}\u{85}\u{A0}\u{200B}\u{2028}\u{FEFF}\u{FFFD}",
];

/// A text of so many code points.
fn text(random: &mut Random, cells: usize) -> Inline {
    let characters: Vec<char> = random.pick(&CHARACTERS).chars().collect();
    let text: String = (0..cells).map(|_| *random.pick(&characters)).collect();
    Inline::Text(text.into_bytes())
}

/// A few cells, about a row, about two or three rows.
fn cells(random: &mut Random) -> usize {
    match random.below(10) {
        0..=4 => 1 + random.below(7),
        5..=7 => 24 + random.below(12),
        8 => 66 - 3 + random.below(6),
        _ => 99 - 3 + random.below(6),
    }
}

/// A valid table of so many parts, in which ids have one to five digits and texts wrap.
pub fn wrapped_table(random: &mut Random, parts: usize) -> Vec<u8> {
    let mut unit = check(&valid_table_of(random, parts)).expect("a valid table");
    renumber(random, &mut unit);
    for part in 0..unit.parts.len() {
        let mut changed = unit.clone();
        contents(&mut changed.parts[part..=part]).for_each(|content| wrap(random, content));
        // Longer texts may pass a limit.
        if hand_out(&changed, MOST_BYTES).is_ok() {
            unit = changed;
        }
    }
    unit.write()
}

/// Gives each id another one, the same wherever it stands; 0 stays.
fn renumber(random: &mut Random, unit: &mut Unit) {
    let (mut ids, mut others) = (Ids::default(), HashMap::from([(0, 0)]));
    let mut change = |id: &mut u16| {
        *id = *others.entry(*id).or_insert_with(|| ids.fresh_of_any_width(random));
    };
    unit.parts.iter_mut().for_each(|part| change(&mut part.id));
    for Placed { inline, .. } in contents(&mut unit.parts).flatten() {
        match inline {
            Inline::Code(code) => {
                change(&mut code.id);
                change(&mut code.copy_of);
            }
            Inline::Annotation(annotation) => change(&mut annotation.id),
            _ => {}
        }
    }
}

/// Other texts for those of the content, and texts before some markers and at its end.
fn wrap(random: &mut Random, content: &mut Vec<Placed>) {
    let mut wrapped = Vec::new();
    let add_text = |random: &mut Random, wrapped: &mut Vec<Inline>| {
        let cells = cells(random);
        wrapped.push(text(random, cells));
    };
    for Placed { inline, .. } in content.drain(..) {
        let is_text = matches!(inline, Inline::Text(_));
        if is_text || random.chance(45) {
            add_text(random, &mut wrapped);
        }
        wrapped.extend((!is_text).then_some(inline));
    }
    if random.chance(30) {
        add_text(random, &mut wrapped);
    }
    *content = gather(wrapped);
}

/// A part with a source, a target or both of many rows, alone in its unit.
pub fn long_table(random: &mut Random) -> Vec<u8> {
    let both = random.chance(40);
    let (most_bytes, most_records) = if both { (3_800, 500) } else { (7_600, 1_000) };
    let bytes = 200 + random.below(most_bytes - 200);
    let long = filled(random, bytes, most_records);
    let other = if both {
        // The same behind a little text: markers stand elsewhere in their rows.
        let cells = 1 + random.below(9);
        [vec![text(random, cells)], long.clone()].concat()
    } else {
        let cells = 1 + random.below(100);
        vec![text(random, cells)]
    };
    let (source, target) = if random.chance(50) { (long, other) } else { (other, long) };
    let target = Target { offset: 0, order: 1, content: gather(target) };
    let kind = PartKind::Segment { can_resegment: b'-', state: random.letter(b"ITRF") };
    let part = Part { offset: 0, id: 0, kind, source: gather(source), target: Some(target) };
    Unit { can_resegment: b'Y', parts: vec![part] }.write()
}

/// A content of at most so many bytes and records: text, codes, annotations, characters that XML
/// forbids, or some of each.
fn filled(random: &mut Random, bytes: usize, records: usize) -> Vec<Inline> {
    let ids = &mut Ids::default();
    let only = random.below(5);
    let (mut content, mut left) = (Vec::new(), bytes);
    while left >= 12 && content.len() + 2 <= records {
        let added = match if only < 4 { only } else { random.below(4) } {
            0 => {
                // A code point has at most four bytes, the record four more.
                let cells = 1 + random.below((left / 4 - 1).min(150));
                vec![text(random, cells)]
            }
            1 => {
                let id = ids.fresh_of_any_width(random);
                let mark = *random.pick(&[b"PH", b"IS", b"IE"]);
                vec![code(mark, id, random)]
            }
            2 => {
                let id = ids.fresh_of_any_width(random);
                vec![annotation(b"SM", id, random), annotation(b"EM", id, random)]
            }
            _ => vec![character(random)],
        };
        left -= written(&gather(added.clone())).len();
        content.extend(added);
    }
    content
}
