//! Where a tag may stand.

use super::attributes::one_of;
use super::before::Before;
use super::elements::{is_known, CONTENTS, INLINE, PARTS, SPANNING};
use super::pieces::Form;
use super::tag::Tag;

const MOST_DEPTH: usize = 32;

/// Why a tag of its name may not stand here, if it may not.
pub fn misplaced(tag: &Tag, before: &Before) -> Option<String> {
    if tag.form == Form::End {
        return closes_nothing(tag.name, before);
    }
    let opened = may_open(before);
    if opened.contains(&tag.name) {
        return None;
    }
    if !is_known(tag.name) {
        return Some(format!("{} is no element that the desk reads", tag.name));
    }
    let mut tags: Vec<String> = opened.iter().map(|name| format!("<{name}>")).collect();
    if may_end(before) {
        tags.extend(before.inside().map(|name| format!("</{name}>")));
    }
    Some(format!("{} may not stand here, only {}", tag.name, one_of(&tags)))
}

/// The elements that may begin here.
fn may_open(before: &Before) -> &'static [&'static str] {
    match (before.inside(), before.open.ended) {
        (None, None) => &["unit"],
        (Some("unit"), _) => &PARTS,
        (Some(part), None) if PARTS.contains(&part) => &CONTENTS[..1],
        (Some(part), Some("source")) if PARTS.contains(&part) => &CONTENTS[1..],
        _ if before.takes_text() => &INLINE,
        _ => &[],
    }
}

fn closes_nothing(name: &str, before: &Before) -> Option<String> {
    match before.inside() {
        None => Some(format!("it closes {name}, and nothing is open")),
        Some(inside) if inside != name => Some(format!("it closes {name}, and {inside} is open")),
        Some(_) => None,
    }
}

/// Whether the innermost element may end here: a part has a source.
fn may_end(before: &Before) -> bool {
    before.open.ended.is_some() || !before.inside().is_some_and(|name| PARTS.contains(&name))
}

/// A part that ends, or is short, without its source.
pub fn without_source(tag: &Tag, before: &Before) -> Option<String> {
    let lacking = match tag.form {
        Form::End => !may_end(before),
        Form::Short => PARTS.contains(&tag.name),
        Form::Start => false,
    };
    lacking.then(|| format!("{} has no source, which it must have", tag.name))
}

pub fn too_deep(tag: &Tag, before: &Before) -> Option<String> {
    let deeper = SPANNING.contains(&tag.name) && before.depth() == MOST_DEPTH;
    deeper.then(|| format!("pc and mrk stand in each other to depth {MOST_DEPTH}, not deeper"))
}
