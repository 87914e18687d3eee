//! A refused unit in XML, told at its place: line and column, what stands there, and what is wrong
//! with it. The desk tells number and place alone. What is said of a place is found by a look at
//! it: help that no answer depends on, and that blames nothing but what stands at the place.

mod attributes;
mod before;
mod bytes;
mod characters;
mod elements;
mod end;
mod pieces;
mod position;
mod records;
mod references;
mod shown;
mod standing;
mod tag;

use xliff_desk::{Reason, Refusal};

use before::Before;

/// What stands at a place, and what is wrong with it.
struct Finding {
    shown: String,
    wrong: String,
}

/// The refusal, and below it what it blames in the text: by 22 what stands at its place; by a rule
/// of the table read the tag of the record at its place. A table past a limit blames nothing.
pub fn blamed(text: &[u8], refusal: Refusal) -> String {
    let place = match refusal.reason {
        Reason::OutsideXml => Some(refusal.place),
        Reason::TooLarge => None,
        _ => records::place_of_record(text, refusal.place),
    };
    let mut told = format!("{refusal}\n");
    let Some(place) = place else { return told };
    let (line, column) = position::position(text, place);
    told += &format!("  line {line}, column {column}: ");
    if refusal.reason == Reason::OutsideXml {
        let Finding { shown, wrong } = finding(text, place);
        told += &format!("{shown}\n  {wrong}\n");
    } else {
        told += &format!("{}\n", shown::tag(&text[place..]));
    }
    told
}

/// What stands at the place of a text's first fault, and what is wrong with it.
fn finding(text: &[u8], place: usize) -> Finding {
    let (before, rest) = (Before::of(text, place), &text[place..]);
    match rest {
        [] => end::finding(&before),
        _ if before.in_comment() => bytes::in_comment(rest),
        [b'<', b'!' | b'?', ..] => bytes::no_comment(rest),
        _ if before.unit_ended() => bytes::behind_unit(rest),
        [b'<', ..] => Finding { shown: shown::tag(rest), wrong: wrong_tag(rest, &before) },
        _ if !before.takes_text() => bytes::no_text_here(rest, before.inside()),
        [b'&', ..] => references::finding(rest),
        _ => bytes::in_text(rest),
    }
}

/// What is wrong with the tag at the head of these bytes: the first that is found, by XML's
/// grammar, about where it stands, in its attributes, and about what stands in it.
fn wrong_tag(bytes: &[u8], before: &Before) -> String {
    let tag = match tag::read(bytes) {
        Ok(tag) => tag,
        Err(wrong) => return wrong,
    };
    attributes::doubled(&tag)
        .or_else(|| standing::misplaced(&tag, before))
        .or_else(|| attributes::unknown(&tag))
        .or_else(|| attributes::bad_value(&tag))
        .or_else(|| attributes::missing(&tag))
        .or_else(|| attributes::id_beside_start_ref(&tag))
        .or_else(|| standing::without_source(&tag, before))
        .or_else(|| standing::too_deep(&tag, before))
        .unwrap_or_else(|| "the desk does not read this tag here".into())
}
