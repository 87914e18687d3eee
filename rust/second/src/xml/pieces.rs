//! What stands between two tags, inside source and target and outside.

use super::fault::{Fault, Reason};
use super::scanner::{Scanner, Stop};
use super::tags::Tag;

/// What stands next in a content.
pub enum Piece<'a> {
    Character(char),
    Tag(Tag<'a>),
}

impl<'a> Scanner<'a> {
    /// What stands next in a content. Comments before it are skipped, so that "text around a
    /// comment is a single run".
    pub fn piece(&mut self) -> Result<Piece<'a>, Fault> {
        while self.comment()? {}
        match self.peek() {
            Ok(b'<') => self.tag().map(Piece::Tag),
            Ok(b'&') => self.reference_in_text().map(Piece::Character),
            Ok(_) => self.character_in_text().map(Piece::Character),
            Err(_) => Err(self.at_end(Reason::Unclosed)),
        }
    }

    /// The next tag outside source and target: "Comments are skipped, as are blanks".
    pub fn tag_after_blanks(&mut self) -> Result<Tag<'a>, Fault> {
        self.blanks_and_comments()?;
        self.tag_here()
    }

    /// The next tag inside an element that is always empty: "inside only comments".
    pub fn tag_after_comments(&mut self) -> Result<Tag<'a>, Fault> {
        while self.comment()? {}
        self.tag_here()
    }

    /// "Behind the unit the first byte that is no blank and begins no comment is at fault".
    pub fn nothing_behind(&mut self) -> Result<(), Fault> {
        self.blanks_and_comments()?;
        match self.peek() {
            Ok(_) => Err(Reason::BehindUnit.at(self.place())),
            Err(_) => Ok(()),
        }
    }

    fn blanks_and_comments(&mut self) -> Result<(), Fault> {
        while self.blanks() || self.comment()? {}
        Ok(())
    }

    /// Where no text may stand, "a reference or a character that is no blank is at fault at its
    /// first byte, cut or not".
    fn tag_here(&mut self) -> Result<Tag<'a>, Fault> {
        match self.peek() {
            Ok(b'<') => self.tag(),
            Ok(_) => Err(Reason::NoTextHere.at(self.place())),
            Err(_) => Err(self.at_end(Reason::Unclosed)),
        }
    }

    fn reference_in_text(&mut self) -> Result<char, Fault> {
        let place = self.place();
        match self.reference() {
            Ok(meaning) => meaning.map_err(|reason| reason.at(place)),
            Err(Stop::Cut) => Err(self.at_end(Reason::CutReference)),
            Err(_) => Err(Reason::BrokenReference.at(place)),
        }
    }

    fn character_in_text(&mut self) -> Result<char, Fault> {
        let place = self.place();
        if self.rest().starts_with(b"]]>") {
            return Err(Reason::SectionEnd.at(place));
        }
        self.character().map_err(|stop| match stop {
            Stop::Cut => self.at_end(Reason::CutCharacter),
            Stop::Forbidden => Reason::ForbiddenCharacter.at(place),
            _ => Reason::NoUtf8.at(place),
        })
    }
}
