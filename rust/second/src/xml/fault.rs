//! "22, text outside this subset, against XML 1.0 or deeper, place the first tag, reference or
//! byte at fault or the end of a cut text".

use crate::Refusal;

/// What is wrong with a text. The answer is 22 in each case; the reason tells what was blamed.
#[derive(Clone, Copy, Debug, PartialEq, Eq, PartialOrd, Ord)]
pub enum Reason {
    /// A tag that is none by XML's grammar.
    BrokenTag,
    /// An unknown element, or one that may not stand there.
    Element,
    UnknownAttribute,
    DoubledAttribute,
    MissingAttribute,
    BadValue,
    /// A reference in a value that names nothing.
    ReferenceInValue,
    /// A pc or mrk deeper than 32.
    TooDeep,
    /// An end tag that closes nothing or another element.
    EndTag,
    /// A part that is closed before it has a source.
    NoSource,
    /// A reference that is none by XML's grammar.
    BrokenReference,
    /// A reference to an entity that is not one of the five.
    UnknownEntity,
    /// A reference to a code point that XML forbids.
    ForbiddenByReference,
    /// A character or a reference where no text may stand.
    NoTextHere,
    /// `]]>` in text.
    SectionEnd,
    /// `--` inside a comment.
    TwoHyphens,
    /// `<!` or `<?` that begins no comment.
    NoComment,
    NoUtf8,
    ForbiddenCharacter,
    /// What stands behind the unit, no blank and no comment.
    BehindUnit,
    CutTag,
    CutReference,
    CutComment,
    CutCharacter,
    /// The text ends between two of these, before the unit is closed.
    Unclosed,
}

impl Reason {
    pub const ALL: [Reason; 25] = [
        Reason::BrokenTag,
        Reason::Element,
        Reason::UnknownAttribute,
        Reason::DoubledAttribute,
        Reason::MissingAttribute,
        Reason::BadValue,
        Reason::ReferenceInValue,
        Reason::TooDeep,
        Reason::EndTag,
        Reason::NoSource,
        Reason::BrokenReference,
        Reason::UnknownEntity,
        Reason::ForbiddenByReference,
        Reason::NoTextHere,
        Reason::SectionEnd,
        Reason::TwoHyphens,
        Reason::NoComment,
        Reason::NoUtf8,
        Reason::ForbiddenCharacter,
        Reason::BehindUnit,
        Reason::CutTag,
        Reason::CutReference,
        Reason::CutComment,
        Reason::CutCharacter,
        Reason::Unclosed,
    ];

    /// The fault at this place.
    pub fn at(self, place: usize) -> Fault {
        Fault { reason: self, place }
    }
}

/// The first fault of a text: what is blamed, and where it begins.
#[derive(Clone, Copy, Debug, PartialEq, Eq)]
pub struct Fault {
    pub reason: Reason,
    pub place: usize,
}

impl From<Fault> for Refusal {
    fn from(fault: Fault) -> Refusal {
        Refusal { number: 22, place: fault.place }
    }
}
