//! Generated texts: what is told of each agrees with what the second implementation found at the
//! place.

use std::collections::BTreeMap;

use second::generate::{xml_job, xml_neighbours, LineOperation, Random, XmlJob};
use second::xml::{unit_of, Reason};

use super::*;

const SEED: u64 = 21;
const JOBS: u64 = 10_000;

const IN_ATTRIBUTES: &[&str] = &[
    " is no attribute of ",
    "the value of ",
    " must have",
    "which it must not have",
    " may not stand here, only <segment>, <ignorable> or </unit>",
    " is no element that the desk reads",
];

/// A piece of the words that tell of a reason.
fn words_of(reason: Reason) -> &'static [&'static str] {
    match reason {
        Reason::BrokenTag => &["no tag of XML: ", "in the value of "],
        Reason::Element => &[" is no element that the desk reads", " may not stand here, only "],
        Reason::UnknownAttribute | Reason::MissingAttribute => &IN_ATTRIBUTES[..4],
        // Of a tag in a part's place the second implementation reads the id before the name.
        Reason::BadValue => IN_ATTRIBUTES,
        Reason::DoubledAttribute => &[" stands twice"],
        Reason::ReferenceInValue => &["in the value of "],
        Reason::TooDeep => &["to depth 32, not deeper"],
        Reason::EndTag => &["it closes "],
        Reason::NoSource => &[" has no source"],
        Reason::BrokenReference => &["begins no reference", "no ; stands", "is written as &#65;"],
        Reason::UnknownEntity => &[" is none of &amp;"],
        Reason::ForbiddenByReference => &["it names no character"],
        Reason::NoTextHere => &[
            "no text may stand here",
            "before the unit only",
            "is an empty element",
            "a byte order mark is not read",
        ],
        Reason::SectionEnd => &["]]> may not stand in a text"],
        Reason::TwoHyphens => &["-- may not stand in a comment"],
        Reason::NoComment => &[" is not read", "<! begins no comment"],
        Reason::NoUtf8 => &[" is no UTF-8"],
        Reason::ForbiddenCharacter => &["XML forbids U+"],
        Reason::BehindUnit => &["behind the unit only"],
        Reason::CutTag => &["the text ends inside a tag"],
        Reason::CutReference => &["the text ends inside a reference"],
        Reason::CutComment => &["the text ends inside a comment"],
        Reason::CutCharacter => &["the text ends inside a UTF-8 character"],
        Reason::Unclosed => &["the text ends before "],
    }
}

/// How often each reason was told.
fn compare(jobs: impl Iterator<Item = XmlJob>) -> BTreeMap<Reason, usize> {
    let mut reasons = BTreeMap::new();
    for job in jobs.filter(|job| job.operation() == LineOperation::ReadXml) {
        let Err(fault) = unit_of(&job.input) else { continue };
        let lines = told(&job.input);
        let [place, wrong] = &lines[..] else { panic!("{lines:?}") };
        let agrees = words_of(fault.reason).iter().any(|words| wrong.contains(words));
        assert!(agrees, "{:?}: {lines:?} of {}", fault.reason, job.input.escape_ascii());
        assert!(place.starts_with("line "));
        *reasons.entry(fault.reason).or_default() += 1;
    }
    reasons
}

#[test]
fn the_words_agree_with_the_second_implementation() {
    let reasons = compare((0..JOBS).map(|number| xml_job(SEED, number)));
    println!("{reasons:?}");
    for reason in Reason::ALL {
        assert!(reasons.contains_key(&reason), "{reason:?} does not occur");
    }
}

#[test]
fn of_neighbours_of_a_text_too() {
    let reasons = compare(xml_neighbours().into_iter());
    println!("{reasons:?}");
    assert!(reasons.len() > 20);
}

/// Whatever place is named of whatever text, something is told of it.
#[test]
fn any_place_of_any_text() {
    let random = &mut Random::new(SEED);
    for number in 0..2000 {
        let text = xml_job(SEED + 1, number).input;
        for _ in 0..20 {
            let place = random.below(text.len() + 1);
            let refusal = Refusal { reason: xliff_desk::Reason::OutsideXml, place };
            assert_eq!(deskjob::xml::blamed(&text, refusal).lines().count(), 3);
            let refusal = Refusal { reason: xliff_desk::Reason::BadRecord, place };
            assert!(deskjob::xml::blamed(&text, refusal).lines().count() <= 2);
        }
    }
}
