//! The elements: their attributes as fields of records. "Absent attributes take the draft's
//! defaults (22 if required), canOverlap by element".

use super::attributes::Attributes;
use super::fault::Reason;
use super::words::{REORDER, STATES, YES_NO};
use crate::record::{Annotation, Code, Inline, Mark};
use crate::rules::close_letter;
use crate::table::PartKind;

/// An inline element.
pub enum Element {
    /// One that is always empty.
    Single(Inline),
    /// pc or mrk, with content between two records.
    Spanning { open: Inline, close: Inline },
}

/// `unit`: its canResegment. "The unit's id is written as 1 and not kept."
pub fn unit(attributes: &mut Attributes) -> Result<u8, Reason> {
    attributes.required_number("id")?;
    attributes.letter("canResegment", YES_NO, b'Y')
}

/// `segment` or `ignorable`: id and kind.
pub fn part(name: &str, attributes: &mut Attributes) -> Result<(u16, PartKind), Reason> {
    let id = attributes.number_or_0("id")?;
    let kind = match name {
        "segment" => PartKind::Segment {
            can_resegment: attributes.letter("canResegment", YES_NO, b'-')?,
            state: attributes.letter("state", STATES, b'I')?,
        },
        "ignorable" => PartKind::Ignorable,
        _ => return Err(Reason::Element),
    };
    Ok((id, kind))
}

/// `target`: its order. "an absent order is the part's position".
pub fn target(attributes: &mut Attributes, position: u16) -> Result<u16, Reason> {
    Ok(attributes.number("order")?.unwrap_or(position))
}

/// An element of a content.
pub fn inline(name: &str, attributes: &mut Attributes) -> Result<Element, Reason> {
    match name {
        "cp" => character(attributes).map(Element::Single),
        "ph" => standalone(attributes).map(Element::Single),
        "pc" => pair(attributes),
        "sc" => start(attributes).map(Element::Single),
        "ec" => end(attributes).map(Element::Single),
        "mrk" => annotation(attributes),
        "sm" => annotation_start(*b"SM", attributes).map(Element::Single),
        "em" => annotation_end(attributes).map(Element::Single),
        _ => Err(Reason::Element),
    }
}

/// "`cp` (four upper hexadecimal digits)".
fn character(attributes: &mut Attributes) -> Result<Inline, Reason> {
    let value = attributes.required("hex")?;
    let upper = value.bytes().all(|byte| matches!(byte, b'0'..=b'9' | b'A'..=b'F'));
    if value.len() != 4 || !upper {
        return Err(Reason::BadValue);
    }
    let code_point = u32::from_str_radix(&value, 16).map_err(|_| Reason::BadValue)?;
    Ok(Inline::Character(code_point))
}

/// The fields that all codes have.
fn code(mark: Mark, id: u16, attributes: &mut Attributes) -> Result<Code, Reason> {
    Ok(Code {
        mark,
        id,
        copy_of: attributes.number_or_0("copyOf")?,
        data_ref: 0,
        can_copy: attributes.letter("canCopy", YES_NO, b'Y')?,
        can_delete: attributes.letter("canDelete", YES_NO, b'Y')?,
        can_overlap: b'-',
        can_reorder: attributes.letter("canReorder", REORDER, b'Y')?,
    })
}

fn standalone(attributes: &mut Attributes) -> Result<Inline, Reason> {
    let id = attributes.required_number("id")?;
    let data_ref = attributes.number_or_0("dataRef")?;
    Ok(Inline::Code(Code { data_ref, ..code(*b"PH", id, attributes)? }))
}

/// pc: "`PO` has the attributes, dataRef from dataRefStart; `PC` the same with dataRef from
/// dataRefEnd, and canReorder N where `PO` has F." canOverlap "When used in <pc>: no."
fn pair(attributes: &mut Attributes) -> Result<Element, Reason> {
    let id = attributes.required_number("id")?;
    let can_overlap = attributes.letter("canOverlap", YES_NO, b'N')?;
    let both = Code { can_overlap, ..code(*b"PO", id, attributes)? };
    let close = Code {
        mark: *b"PC",
        data_ref: attributes.number_or_0("dataRefEnd")?,
        can_reorder: close_letter(&both),
        ..both
    };
    let open = Code { data_ref: attributes.number_or_0("dataRefStart")?, ..both };
    Ok(Element::Spanning { open: Inline::Code(open), close: Inline::Code(close) })
}

/// What sc and ec share. canOverlap "When used in <sc> or <ec>: yes."
fn half(mark: Mark, id: u16, attributes: &mut Attributes) -> Result<Inline, Reason> {
    let data_ref = attributes.number_or_0("dataRef")?;
    let can_overlap = attributes.letter("canOverlap", YES_NO, b'Y')?;
    Ok(Inline::Code(Code { data_ref, can_overlap, ..code(mark, id, attributes)? }))
}

fn is_isolated(attributes: &mut Attributes) -> Result<bool, Reason> {
    Ok(attributes.letter("isolated", YES_NO, b'N')? == b'Y')
}

/// "sc always has id."
fn start(attributes: &mut Attributes) -> Result<Inline, Reason> {
    let mark = if is_isolated(attributes)? { *b"IS" } else { *b"SC" };
    let id = attributes.required_number("id")?;
    half(mark, id, attributes)
}

/// ec: "isolated yes has id and no startRef; else startRef and no id".
fn end(attributes: &mut Attributes) -> Result<Inline, Reason> {
    if is_isolated(attributes)? {
        let id = attributes.required_number("id")?;
        return half(*b"IE", id, attributes);
    }
    let id = attributes.required_number("startRef")?;
    half(*b"EC", id, attributes)
}

fn annotation(attributes: &mut Attributes) -> Result<Element, Reason> {
    let open = annotation_start(*b"MO", attributes)?;
    let id = open.id().expect("an annotation has an id");
    let close = Inline::Annotation(Annotation { mark: *b"MC", id, translate: None });
    Ok(Element::Spanning { open, close })
}

fn annotation_start(mark: Mark, attributes: &mut Attributes) -> Result<Inline, Reason> {
    let id = attributes.required_number("id")?;
    let translate = Some(attributes.letter("translate", YES_NO, b'-')?);
    Ok(Inline::Annotation(Annotation { mark, id, translate }))
}

fn annotation_end(attributes: &mut Attributes) -> Result<Inline, Reason> {
    let id = attributes.required_number("startRef")?;
    Ok(Inline::Annotation(Annotation { mark: *b"EM", id, translate: None }))
}
