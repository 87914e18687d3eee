//! The numbers of documents 01 and 02, each with its words. They stand here once.

use std::fmt;

/// Why a table, a text or a request is refused, by its number in document 01 or 02;
/// [`Reason::text`] has each in words. Later orders add reasons.
#[derive(Clone, Copy, Debug, PartialEq, Eq, Hash)]
#[non_exhaustive]
#[repr(u8)]
#[allow(missing_docs)] // the words of each stand in `text`
pub enum Reason {
    TableTooLong = 1,
    BadRecord = 2,
    BadText = 3,
    TooManyRecords = 4,
    BadOrder = 5,
    IdMetEarlier = 6,
    HalfWithoutPartner = 7,
    PartnersDiffer = 8,
    Overlap = 9,
    UnlikeTheSource = 10,
    NoSuchPart = 11,
    PartClosed = 12,
    BadCut = 13,
    IdTaken = 14,
    TooLarge = 15,
    OrdersNotInSequence = 16,
    JoinBreaksPartners = 17,
    CodeLost = 18,
    FixedCodesChanged = 19,
    NothingToChange = 20,
    NotOnePair = 21,
    OutsideXml = 22,
    AccentParted = 23,
    NotGranted = 24,
}

/// Each with its words, in the sequence of their numbers.
const REASONS: &[(Reason, &str)] = &[
    (Reason::TableTooLong, "the table has more than 8,192 bytes"),
    (
        Reason::BadRecord,
        "unknown mark, cut record, bad field or letter, or a record out of sequence",
    ),
    (
        Reason::BadText,
        "text that is empty, not UTF-8, not allowed in XML or directly after a text; \
         or a CP that should be text",
    ),
    (Reason::TooManyRecords, "more than 64 parts or 1,024 records"),
    (Reason::BadOrder, "a target order not in 1 to the number of parts, or used earlier"),
    (Reason::IdMetEarlier, "an id met earlier"),
    (Reason::HalfWithoutPartner, "a half of a pair or annotation without its partner"),
    (Reason::PartnersDiffer, "partners differ in their fields, or canReorder does not fit"),
    (Reason::Overlap, "a pair with canOverlap N encloses an isolated code or half of another pair"),
    (
        Reason::UnlikeTheSource,
        "a target code is unlike the source's of its id, or copyOf names no code to copy",
    ),
    (Reason::NoSuchPart, "no such part"),
    (Reason::PartClosed, "canResegment resolves to N"),
    (Reason::BadCut, "source cut not in 1 to items - 1, or target cut above the target's items"),
    (Reason::IdTaken, "the new id is already that of a part or inline record"),
    (Reason::TooLarge, "the output is too short for the result, or the result beyond a limit"),
    (Reason::OrdersNotInSequence, "the second order is not the first plus 1"),
    (Reason::JoinBreaksPartners, "joined, a half of a pair or annotation would have no partner"),
    (Reason::CodeLost, "a code with canDelete N of the old content is not in the new content"),
    (
        Reason::FixedCodesChanged,
        "the codes with canReorder F or N are not the old content's chains, \
         each whole and in its own order",
    ),
    (
        Reason::NothingToChange,
        "no target, no complete pair or annotation of that id, or already so",
    ),
    (
        Reason::NotOnePair,
        "not in one content, not balanced between, or the end's canReorder does not fit pc",
    ),
    (Reason::OutsideXml, "outside the XML that the desk reads, or pc and mrk deeper than 32"),
    (
        Reason::AccentParted,
        "the source or target cut parts an accent (U+0300 to U+036F) from the text before it",
    ),
    (Reason::NotGranted, "not granted: the role may not ask for this, or not on this part"),
];

// The build fails if their numbers do not rise.
const _: () = {
    let mut row = 1;
    while row < REASONS.len() {
        assert!((REASONS[row - 1].0 as u8) < REASONS[row].0 as u8);
        row += 1;
    }
};

impl Reason {
    /// All reasons, in the sequence of their numbers.
    pub fn all() -> impl Iterator<Item = Reason> {
        REASONS.iter().map(|(reason, _)| *reason)
    }

    /// The reason that has this number, if there is one.
    pub fn of_number(number: u8) -> Option<Reason> {
        Reason::all().find(|reason| reason.number() == number)
    }

    /// Its number in document 01 or 02.
    pub fn number(self) -> u8 {
        self as u8
    }

    /// Its words.
    pub fn text(self) -> &'static str {
        let row = REASONS.iter().find(|(reason, _)| *reason == self);
        row.expect("each reason has its words").1
    }
}

/// "refused with a number and a place".
#[derive(Clone, Copy, Debug, PartialEq, Eq, Hash)]
pub struct Refusal {
    /// Why.
    pub reason: Reason,
    /// In a refused table, the offset of the blamed record (of read XML, in the table read); in set
    /// target's content, the offset in it; in a text that is refused by 22, the offset of the tag,
    /// reference or byte at fault or the end of a cut text; else 0.
    pub place: usize,
}

impl fmt::Display for Refusal {
    fn fmt(&self, out: &mut fmt::Formatter) -> fmt::Result {
        write!(out, "NO {} {}: {}", self.reason.number(), self.place, self.reason.text())
    }
}

impl std::error::Error for Refusal {}
