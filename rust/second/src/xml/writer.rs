//! The writer: "The writer spells every attribute out except a canResegment or translate of -
//! and an id, copyOf or dataRef of 0, and writes a carriage return as a reference". The sequence
//! of attributes and the rest of the spelling are point 15 of the readings.

use super::words::{word_of, Words, REORDER, STATES, YES_NO};
use super::MOST_DEPTH;
use crate::operations::Outcome;
use crate::record::{Annotation, Code, Inline};
use crate::rules::check;
use crate::rules::partners::partners_in_content;
use crate::table::{Part, PartKind, Placed, Unit};
use crate::Refusal;

/// The text that spells the table's unit. Its length is bound by the room alone: "its limits
/// bind tables only".
pub fn write_xml(table: &[u8], room: usize) -> Outcome {
    let unit = check(table)?;
    // "in the writer a deeper table, after its check, place 0".
    if contents(&unit).any(|content| depth(content) > MOST_DEPTH) {
        return Err(Refusal::without_place(22));
    }
    let mut spelling = Spelling::default();
    spelling.unit(&unit);
    if spelling.text.len() > room {
        return Err(Refusal::without_place(15));
    }
    Ok(spelling.text.into_bytes())
}

fn contents(unit: &Unit) -> impl Iterator<Item = &[Placed]> {
    unit.parts.iter().flat_map(|part| {
        let target = part.target.iter().map(|target| target.content.as_slice());
        std::iter::once(part.source.as_slice()).chain(target)
    })
}

/// How many pc and mrk are open at once, at most.
fn depth(content: &[Placed]) -> usize {
    let (mut open, mut deepest) = (0, 0);
    for placed in content {
        match placed.inline.mark() {
            Some(b"PO" | b"MO") => open += 1,
            Some(b"PC" | b"MC") => open -= 1,
            _ => {}
        }
        deepest = deepest.max(open);
    }
    deepest
}

#[derive(Default)]
struct Spelling {
    text: String,
}

impl Spelling {
    fn unit(&mut self, unit: &Unit) {
        self.begin("unit");
        self.number("id", 1);
        self.word("canResegment", YES_NO, unit.can_resegment);
        self.text += ">";
        unit.parts.iter().for_each(|part| self.part(part));
        self.end("unit");
    }

    fn part(&mut self, part: &Part) {
        let name = match part.kind {
            PartKind::Segment { .. } => "segment",
            PartKind::Ignorable => "ignorable",
        };
        self.begin(name);
        self.number("id", part.id);
        if let PartKind::Segment { can_resegment, state } = part.kind {
            self.word("canResegment", YES_NO, can_resegment);
            self.word("state", STATES, state);
        }
        self.text += "><source>";
        self.content(&part.source);
        self.end("source");
        if let Some(target) = &part.target {
            self.begin("target");
            self.number("order", target.order);
            self.text += ">";
            self.content(&target.content);
            self.end("target");
        }
        self.end(name);
    }

    fn content(&mut self, content: &[Placed]) {
        let inlines: Vec<&Inline> = content.iter().map(|placed| &placed.inline).collect();
        let partners = partners_in_content(&inlines);
        for (inline, partner) in inlines.iter().zip(partners) {
            match inline {
                Inline::Text(text) => self.characters(text),
                Inline::Character(code_point) => {
                    self.text += &format!("<cp hex=\"{code_point:04X}\"/>");
                }
                Inline::Code(code) => {
                    let partner = partner.and_then(|partner| inlines[partner].code());
                    self.code(code, partner);
                }
                Inline::Annotation(annotation) => self.annotation(annotation),
            }
        }
    }

    /// "Text escapes `&amp;` `&lt;` `&gt;`, a carriage return is `&#13;`, all else is raw UTF-8."
    fn characters(&mut self, text: &[u8]) {
        for character in std::str::from_utf8(text).expect("the table was checked before").chars() {
            match character {
                '&' => self.text += "&amp;",
                '<' => self.text += "&lt;",
                '>' => self.text += "&gt;",
                '\r' => self.text += "&#13;",
                other => self.text.push(other),
            }
        }
    }

    /// A code; an open of pc with its close, whose dataRef it spells.
    fn code(&mut self, code: &Code, close: Option<&Code>) {
        let (name, id) = match &code.mark {
            b"PH" => ("ph", "id"),
            b"PO" => ("pc", "id"),
            b"PC" => return self.end("pc"),
            b"SC" | b"IS" => ("sc", "id"),
            b"EC" => ("ec", "startRef"),
            _ => ("ec", "id"),
        };
        self.begin(name);
        self.number(id, code.id);
        self.number("copyOf", code.copy_of);
        match close {
            Some(close) => {
                self.number("dataRefStart", code.data_ref);
                self.number("dataRefEnd", close.data_ref);
            }
            None => self.number("dataRef", code.data_ref),
        }
        self.word("canCopy", YES_NO, code.can_copy);
        self.word("canDelete", YES_NO, code.can_delete);
        self.word("canOverlap", YES_NO, code.can_overlap);
        self.word("canReorder", REORDER, code.can_reorder);
        match &code.mark {
            b"SC" | b"EC" => self.word("isolated", YES_NO, b'N'),
            b"IS" | b"IE" => self.word("isolated", YES_NO, b'Y'),
            _ => {}
        }
        self.text += if name == "pc" { ">" } else { "/>" };
    }

    fn annotation(&mut self, annotation: &Annotation) {
        let (name, id, end) = match &annotation.mark {
            b"MO" => ("mrk", "id", ">"),
            b"SM" => ("sm", "id", "/>"),
            b"EM" => ("em", "startRef", "/>"),
            _ => return self.end("mrk"),
        };
        self.begin(name);
        self.number(id, annotation.id);
        if let Some(translate) = annotation.translate {
            self.word("translate", YES_NO, translate);
        }
        self.text += end;
    }

    fn begin(&mut self, name: &str) {
        self.text += &format!("<{name}");
    }

    fn end(&mut self, name: &str) {
        self.text += &format!("</{name}>");
    }

    /// A number, unless it is 0.
    fn number(&mut self, name: &str, number: u16) {
        if number != 0 {
            self.text += &format!(" {name}=\"{number}\"");
        }
    }

    /// A letter's word, unless it is -.
    fn word(&mut self, name: &str, words: &Words, letter: u8) {
        if let Some(word) = word_of(words, letter) {
            self.text += &format!(" {name}=\"{word}\"");
        }
    }
}
