//! Inline records for the generated contents.

use super::random::{Ids, Random};
use crate::operations::content::gather;
use crate::record::{Annotation, Code, Inline, Mark};
use crate::table::Placed;

const WORDS: [&str; 11] =
    ["A. B", "x", "Hello", " ", ". ", "naïve", "漢字", "😀", "\t\n", "\u{FFFD}", "½ a"];

/// Code points that XML 1.0 forbids.
const FORBIDDEN: [u32; 9] = [0, 1, 8, 0xB, 0x1F, 0xD800, 0xDFFF, 0xFFFE, 0xFFFF];

/// One to three words, many with accents behind them.
pub fn text(random: &mut Random) -> Inline {
    let mut text = String::new();
    for _ in 0..1 + random.below(3) {
        text += *random.pick(&WORDS);
        if random.chance(40) {
            text += &one_or_two_accents(random);
        }
    }
    Inline::Text(text.into_bytes())
}

/// Accents with nothing before them; touching texts become one.
pub fn accents(random: &mut Random) -> Inline {
    Inline::Text(one_or_two_accents(random).into_bytes())
}

fn one_or_two_accents(random: &mut Random) -> String {
    (0..1 + random.below(2)).map(|_| accent(random)).collect()
}

/// "an accent as a second code point, U+0300 to U+036F", or a neighbour of these.
fn accent(random: &mut Random) -> char {
    match random.below(10) {
        0 => '\u{2FF}',
        1 => '\u{370}',
        2 => '\u{300}',
        3 => '\u{36F}',
        _ => ('\u{300}'..='\u{36F}').nth(random.below(0x70)).expect("0x70 of them"),
    }
}

pub fn character(random: &mut Random) -> Inline {
    Inline::Character(*random.pick(&FORBIDDEN))
}

/// A code whose letters allow everything.
pub fn code(mark: &Mark, id: u16, random: &mut Random) -> Inline {
    let can_overlap = if mark == b"PH" { b'-' } else { random.letter(b"YYN") };
    Inline::Code(Code {
        mark: *mark,
        id,
        copy_of: 0,
        data_ref: if random.chance(40) { random.number(9) } else { 0 },
        can_copy: b'Y',
        can_delete: b'Y',
        can_overlap,
        can_reorder: b'Y',
    })
}

pub fn annotation(mark: &Mark, id: u16, random: &mut Random) -> Inline {
    let translate = (mark == b"MO" || mark == b"SM").then(|| random.letter(b"YN-"));
    Inline::Annotation(Annotation { mark: *mark, id, translate })
}

/// The two halves of a new pair (or annotation), as start and end marks.
pub fn halves(random: &mut Random, ids: &mut Ids, pair: bool) -> (Inline, Inline) {
    let id = ids.fresh(random);
    if !pair {
        return (annotation(b"SM", id, random), annotation(b"EM", id, random));
    }
    (code(b"SC", id, random), code(b"EC", id, random))
}

/// Cuts a flat sequence into this many contents, some of them empty.
pub fn cut_into(random: &mut Random, flat: Vec<Inline>, contents: usize) -> Vec<Vec<Inline>> {
    let mut cuts: Vec<usize> = (1..contents).map(|_| random.below(flat.len() + 1)).collect();
    cuts.sort_unstable();
    cuts.push(flat.len());
    let mut first = 0;
    let mut cut = Vec::new();
    for end in cuts {
        cut.push(flat[first..end].to_vec());
        first = end;
    }
    cut
}

/// Turns the halves of the id to pc or mrk where both stand in this content.
pub fn turn_to_brackets(content: &mut [Inline], id: u16) {
    if content.iter().filter(|inline| inline.half().is_some() && inline.id() == Some(id)).count()
        != 2
    {
        return;
    }
    for inline in content {
        match inline {
            Inline::Code(code) if code.id == id => match &code.mark {
                b"SC" => code.mark = *b"PO",
                b"EC" => code.mark = *b"PC",
                _ => {}
            },
            Inline::Annotation(annotation) if annotation.id == id => match &annotation.mark {
                b"SM" => annotation.mark = *b"MO",
                b"EM" => annotation.mark = *b"MC",
                _ => {}
            },
            _ => {}
        }
    }
}

/// As records of a content: touching texts are one.
pub fn placed(content: Vec<Inline>) -> Vec<Placed> {
    gather(content)
}
