//! A unit as the tags and texts of an XML document, before it is spelled.

use crate::record::{Annotation, Code, Inline};
use crate::rules::partners::partners_in_content;
use crate::table::{Part, PartKind, Placed, Unit};
use crate::xml::words::{word_of, Words, REORDER, STATES, YES_NO};

#[derive(Clone)]
pub struct Attribute {
    pub name: String,
    pub value: String,
    /// The value is what absence means, so that it may be left out.
    pub is_default: bool,
}

#[derive(Clone)]
pub struct Tag {
    pub name: String,
    pub attributes: Vec<Attribute>,
}

#[derive(Clone)]
pub enum Piece {
    Start(Tag),
    End(String),
    Text(String),
    /// Bytes that are spelled as they are.
    Bytes(Vec<u8>),
}

impl Tag {
    fn new(name: &str) -> Tag {
        Tag { name: name.to_string(), attributes: Vec::new() }
    }

    fn attribute(&mut self, name: &str, value: String, is_default: bool) {
        self.attributes.push(Attribute { name: name.to_string(), value, is_default });
    }

    /// A number, unless it is 0.
    fn number(mut self, name: &str, number: u16) -> Tag {
        if number != 0 {
            self.attribute(name, number.to_string(), false);
        }
        self
    }

    /// A letter's word, unless it is -.
    fn word(mut self, name: &str, words: &Words, letter: u8, default: u8) -> Tag {
        if let Some(word) = word_of(words, letter) {
            self.attribute(name, word.to_string(), letter == default);
        }
        self
    }
}

/// The unit under this id.
pub fn document(unit: &Unit, id: u16) -> Vec<Piece> {
    let tag = Tag::new("unit").number("id", id);
    let mut pieces = vec![Piece::Start(tag.word("canResegment", YES_NO, unit.can_resegment, b'Y'))];
    for (index, part) in unit.parts.iter().enumerate() {
        add_part(&mut pieces, part, index + 1);
    }
    pieces.push(Piece::End("unit".into()));
    pieces
}

fn add_part(pieces: &mut Vec<Piece>, part: &Part, position: usize) {
    let tag = match part.kind {
        PartKind::Segment { can_resegment, state } => Tag::new("segment")
            .number("id", part.id)
            .word("canResegment", YES_NO, can_resegment, b'-')
            .word("state", STATES, state, b'I'),
        PartKind::Ignorable => Tag::new("ignorable").number("id", part.id),
    };
    let name = tag.name.clone();
    pieces.push(Piece::Start(tag));
    pieces.push(Piece::Start(Tag::new("source")));
    add_content(pieces, &part.source);
    pieces.push(Piece::End("source".into()));
    if let Some(target) = &part.target {
        let mut tag = Tag::new("target");
        let at_position = usize::from(target.order) == position;
        tag.attribute("order", target.order.to_string(), at_position);
        pieces.push(Piece::Start(tag));
        add_content(pieces, &target.content);
        pieces.push(Piece::End("target".into()));
    }
    pieces.push(Piece::End(name));
}

fn add_content(pieces: &mut Vec<Piece>, content: &[Placed]) {
    let inlines: Vec<&Inline> = content.iter().map(|placed| &placed.inline).collect();
    let partners = partners_in_content(&inlines);
    for (inline, partner) in inlines.iter().zip(partners) {
        let tag = match inline {
            Inline::Text(text) => {
                pieces.push(Piece::Text(String::from_utf8_lossy(text).into_owned()));
                continue;
            }
            Inline::Character(code_point) => {
                let mut tag = Tag::new("cp");
                tag.attribute("hex", format!("{code_point:04X}"), false);
                tag
            }
            Inline::Code(code) => code_tag(code, partner.and_then(|at| inlines[at].code())),
            Inline::Annotation(annotation) => annotation_tag(annotation),
        };
        let name = tag.name.clone();
        match inline.mark() {
            Some(b"PO" | b"MO") => pieces.push(Piece::Start(tag)),
            Some(b"PC" | b"MC") => pieces.push(Piece::End(name)),
            _ => pieces.extend([Piece::Start(tag), Piece::End(name)]),
        }
    }
}

/// The tag of a code; of pc's open with the close, whose dataRef it has.
fn code_tag(code: &Code, close: Option<&Code>) -> Tag {
    let (name, id, overlap) = match &code.mark {
        b"PH" => ("ph", "id", b'-'),
        b"PO" | b"PC" => ("pc", "id", b'N'),
        b"SC" | b"IS" => ("sc", "id", b'Y'),
        b"EC" => ("ec", "startRef", b'Y'),
        _ => ("ec", "id", b'Y'),
    };
    let tag = Tag::new(name).number(id, code.id).number("copyOf", code.copy_of);
    let tag = if name == "pc" {
        let end = close.map_or(0, |close| close.data_ref);
        tag.number("dataRefStart", code.data_ref).number("dataRefEnd", end)
    } else {
        tag.number("dataRef", code.data_ref)
    };
    let tag = tag
        .word("canCopy", YES_NO, code.can_copy, b'Y')
        .word("canDelete", YES_NO, code.can_delete, b'Y')
        .word("canOverlap", YES_NO, code.can_overlap, overlap)
        .word("canReorder", REORDER, code.can_reorder, b'Y');
    match &code.mark {
        b"SC" | b"EC" => tag.word("isolated", YES_NO, b'N', b'N'),
        b"IS" | b"IE" => tag.word("isolated", YES_NO, b'Y', b'N'),
        _ => tag,
    }
}

fn annotation_tag(annotation: &Annotation) -> Tag {
    let (name, id) = match &annotation.mark {
        b"MO" | b"MC" => ("mrk", "id"),
        b"SM" => ("sm", "id"),
        _ => ("em", "startRef"),
    };
    let translate = annotation.translate.unwrap_or(b'-');
    Tag::new(name).number(id, annotation.id).word("translate", YES_NO, translate, b'-')
}
