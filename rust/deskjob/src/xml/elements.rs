//! The elements that the desk reads, and their attributes.

/// What the value of an attribute may be.
#[derive(Clone, Copy)]
pub enum Value {
    /// 1 to 65535, no leading zero.
    Number,
    /// Four upper hexadecimal digits.
    Digits,
    /// One of these.
    Words(&'static [&'static str]),
}

use Value::{Digits, Number, Words};

const YES_NO: Value = Words(&["yes", "no"]);
const REORDER: Value = Words(&["yes", "firstNo", "no"]);
const STATES: Value = Words(&["initial", "translated", "reviewed", "final"]);

/// Attributes that stand together.
type Group = &'static [(&'static str, Value)];

const ID: Group = &[("id", Number)];
const START_REF: Group = &[("startRef", Number)];
const RESEGMENT: Group = &[("canResegment", YES_NO)];
const CODE: Group =
    &[("copyOf", Number), ("canCopy", YES_NO), ("canDelete", YES_NO), ("canReorder", REORDER)];
const DATA_REF: Group = &[("dataRef", Number)];
const BOTH_DATA_REFS: Group = &[("dataRefStart", Number), ("dataRefEnd", Number)];
const OVERLAP: Group = &[("canOverlap", YES_NO)];
const ISOLATED: Group = &[("isolated", YES_NO)];
const TRANSLATE: Group = &[("translate", YES_NO)];

/// Elements with their attributes.
const ELEMENTS: [(&str, &[Group]); 13] = [
    ("unit", &[ID, RESEGMENT]),
    ("segment", &[ID, RESEGMENT, &[("state", STATES)]]),
    ("ignorable", &[ID]),
    ("source", &[]),
    ("target", &[&[("order", Number)]]),
    ("cp", &[&[("hex", Digits)]]),
    ("ph", &[ID, CODE, DATA_REF]),
    ("pc", &[ID, CODE, BOTH_DATA_REFS, OVERLAP]),
    ("sc", &[ID, CODE, DATA_REF, OVERLAP, ISOLATED]),
    ("ec", &[ID, START_REF, CODE, DATA_REF, OVERLAP, ISOLATED]),
    ("mrk", &[ID, TRANSLATE]),
    ("sm", &[ID, TRANSLATE]),
    ("em", &[START_REF]),
];

pub const PARTS: [&str; 2] = ["segment", "ignorable"];
pub const CONTENTS: [&str; 2] = ["source", "target"];
pub const INLINE: [&str; 8] = ["cp", "ph", "pc", "sc", "ec", "mrk", "sm", "em"];
/// With content between two tags.
pub const SPANNING: [&str; 2] = ["pc", "mrk"];

pub fn is_known(element: &str) -> bool {
    ELEMENTS.iter().any(|(name, _)| *name == element)
}

/// What the value of an element's attribute may be, if it has this attribute.
pub fn value_of(element: &str, attribute: &str) -> Option<Value> {
    let (_, groups) = ELEMENTS.iter().find(|(name, _)| *name == element)?;
    let mut attributes = groups.iter().flat_map(|group| group.iter());
    attributes.find(|(name, _)| *name == attribute).map(|(_, value)| *value)
}
