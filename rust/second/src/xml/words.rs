//! The words that document 000 has for the letters of a table.

/// Letters, each with its word.
pub type Words = [(u8, &'static str)];

/// canResegment, canCopy, canDelete, canOverlap, isolated, translate: "yes or no".
pub const YES_NO: &Words = &[(b'Y', "yes"), (b'N', "no")];

/// canReorder.
pub const REORDER: &Words = &[(b'Y', "yes"), (b'F', "firstNo"), (b'N', "no")];

/// state: "initial, translated, reviewed, final".
pub const STATES: &Words =
    &[(b'I', "initial"), (b'T', "translated"), (b'R', "reviewed"), (b'F', "final")];

pub fn letter_of(words: &Words, word: &str) -> Option<u8> {
    words.iter().find(|(_, known)| *known == word).map(|(letter, _)| *letter)
}

/// The word of a letter; none for -, which no attribute spells.
pub fn word_of(words: &Words, letter: u8) -> Option<&'static str> {
    words.iter().find(|(known, _)| *known == letter).map(|(_, word)| *word)
}
