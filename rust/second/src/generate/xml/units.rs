//! Units for XML: valid ones with texts that XML must escape, ones that break a rule, deep ones
//! and ones past a limit.

use crate::generate::inline::{annotation, character, code, text};
use crate::generate::mutations::table_refused_by;
use crate::generate::random::{Ids, Random};
use crate::generate::unit::{contents, valid_table};
use crate::operations::content::gather;
use crate::record::Inline;
use crate::rules::check;
use crate::table::{read_table, Part, PartKind, Placed, Target, Unit};

/// Texts that are spelled in more than one way, or nearly markup.
const TEXTS: [&str; 18] = [
    "<",
    ">",
    "&",
    "'",
    "\"",
    "]]>",
    "]]",
    "\r",
    "\n",
    "\r\n",
    "\t",
    " ",
    "&amp;",
    "&#13;",
    "<!--",
    "é\u{85}",
    "\u{2028}\u{FFFD}",
    "😀\u{10FFFF}",
];

/// A valid unit, many of its texts of the kind above.
pub fn valid_unit(random: &mut Random) -> Unit {
    let table = valid_table(random);
    let unit = check(&table).expect("a valid table");
    let mut changed = unit.clone();
    contents(&mut changed.parts).for_each(|content| change_texts(random, content));
    // Longer texts may pass the limit of bytes.
    check(&changed.write()).unwrap_or(unit)
}

fn change_texts(random: &mut Random, content: &mut [Placed]) {
    for Placed { inline, .. } in content {
        if let Inline::Text(text) = inline {
            if random.chance(70) {
                let pieces = 1 + random.below(4);
                *text = (0..pieces).flat_map(|_| random.pick(&TEXTS).bytes()).collect();
            }
        }
    }
}

/// A unit that breaks a rule which a text can break: no parts (2), a `CP` of a character that XML
/// allows (3), or one of 5 to 10.
pub fn broken_unit(random: &mut Random) -> Unit {
    match *random.pick(&[2, 3, 5, 6, 6, 7, 7, 8, 8, 9, 9, 10, 10]) {
        2 => Unit { can_resegment: random.letter(b"YN"), parts: Vec::new() },
        3 => {
            let mut unit = valid_unit(random);
            let part = random.below(unit.parts.len());
            put_allowed_character(random, &mut unit.parts[part].source);
            unit
        }
        // After many tries the table may be one that is no unit at all.
        number => {
            read_table(&table_refused_by(random, number)).unwrap_or_else(|_| valid_unit(random))
        }
    }
}

fn put_allowed_character(random: &mut Random, content: &mut Vec<Placed>) {
    let code_point = *random.pick(&[9, 0xA, 0xD, 0x20, 0x41, 0xD7FF, 0xE000, 0xFFFD]);
    let place = random.below(content.len() + 1);
    content.insert(place, Placed { offset: 0, inline: Inline::Character(code_point) });
}

fn segment(source: Vec<Inline>, target: Option<Vec<Inline>>) -> Part {
    let kind = PartKind::Segment { can_resegment: b'-', state: b'T' };
    let target = target.map(|content| Target { offset: 0, order: 1, content: gather(content) });
    Part { offset: 0, id: 0, kind, source: gather(source), target }
}

/// pc and mrk around each other, 31 to 34 deep at the deepest (seldom far deeper), in the source,
/// the target or both.
pub fn deep_unit(random: &mut Random) -> Unit {
    let depth = match random.below(10) {
        0 => 35 + random.below(100),
        _ => 31 + random.below(4),
    };
    let content = tower(random, depth);
    let part = match random.below(3) {
        0 => segment(content, None),
        1 => segment(Vec::new(), Some(content)),
        _ => segment(content.clone(), Some(content)),
    };
    Unit { can_resegment: random.letter(b"YN"), parts: vec![part] }
}

/// A content of this depth: it goes up and down on its way, and once to the top.
fn tower(random: &mut Random, depth: usize) -> Vec<Inline> {
    let (ids, mut content, mut open) = (&mut Ids::default(), Vec::new(), Vec::new());
    let mut to_top = true;
    while to_top || !open.is_empty() {
        let up = if to_top { random.chance(90) } else { random.chance(15) };
        if up && open.len() < depth {
            let (start, end) = bracket(random, ids);
            content.push(start);
            open.push(end);
            to_top &= open.len() < depth;
        } else if let Some(end) = open.pop() {
            content.push(end);
        }
        if random.chance(10) {
            content.push(text(random));
        }
    }
    content
}

/// The open and the close of a pc or mrk.
fn bracket(random: &mut Random, ids: &mut Ids) -> (Inline, Inline) {
    let id = ids.fresh(random);
    if random.chance(50) {
        return (annotation(b"MO", id, random), annotation(b"MC", id, random));
    }
    let mut close = code(b"PC", id, random);
    let mut open = close.clone();
    if let (Inline::Code(open), Inline::Code(close)) = (&mut open, &mut close) {
        open.mark = *b"PO";
        close.data_ref = random.number(5);
    }
    (open, close)
}

/// At a limit of the table or past it: 64 parts, 1,024 records, 8,192 bytes.
pub fn long_unit(random: &mut Random) -> Unit {
    let parts = match random.below(5) {
        0 => many_parts(random),
        1 => {
            let records = 1019 + random.below(5);
            vec![segment((0..records).map(|_| character(random)).collect(), None)]
        }
        2 => {
            let length = *random.pick(&[9_000, 65_535, 65_536, 70_000]);
            vec![segment(vec![Inline::Text(vec![b'a'; length])], None)]
        }
        _ => {
            // Of the table, 15 bytes are not of the text.
            let length = 8190 - 15 + random.below(5);
            vec![segment(vec![Inline::Text(vec![b'a'; length])], None)]
        }
    };
    Unit { can_resegment: b'Y', parts }
}

fn many_parts(random: &mut Random) -> Vec<Part> {
    let count = 63 + random.below(4);
    (1..=count)
        .map(|position| {
            let mut part = segment(vec![Inline::Text(b"ab".to_vec())], Some(Vec::new()));
            part.target = part.target.filter(|_| random.chance(50));
            if let Some(target) = &mut part.target {
                target.order = position as u16;
            }
            part
        })
        .collect()
}
