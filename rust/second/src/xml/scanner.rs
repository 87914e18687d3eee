//! A text read from left to right: bytes, characters, names, blanks and comments of XML 1.0.

use super::fault::{Fault, Reason};
use crate::table::xml_allows;

/// Why the reading of a character, a name, a tag or a reference comes to nothing.
#[derive(Clone, Copy, Debug, PartialEq, Eq)]
pub enum Stop {
    /// The text ends here, and its bytes so far break no grammar.
    Cut,
    /// The bytes break XML's grammar.
    Grammar,
    /// The bytes are no UTF-8 character.
    NoUtf8,
    /// The character is one that XML forbids.
    Forbidden,
    /// A reference that is whole names nothing.
    Nothing,
}

pub struct Scanner<'a> {
    text: &'a [u8],
    place: usize,
}

impl<'a> Scanner<'a> {
    pub fn new(text: &'a [u8]) -> Scanner<'a> {
        Scanner { text, place: 0 }
    }

    /// The place of the next byte.
    pub fn place(&self) -> usize {
        self.place
    }

    pub fn rest(&self) -> &'a [u8] {
        &self.text[self.place..]
    }

    /// The next byte, which is not taken yet.
    pub fn peek(&self) -> Result<u8, Stop> {
        self.rest().first().copied().ok_or(Stop::Cut)
    }

    pub fn skip(&mut self, bytes: usize) {
        self.place += bytes;
    }

    /// Takes this byte.
    pub fn expect(&mut self, byte: u8) -> Result<(), Stop> {
        if self.peek()? != byte {
            return Err(Stop::Grammar);
        }
        self.skip(1);
        Ok(())
    }

    /// Takes blanks (XML 1.0, production 3); whether there were any.
    pub fn blanks(&mut self) -> bool {
        let blank = |byte: &&u8| matches!(byte, b' ' | b'\t' | b'\r' | b'\n');
        let count = self.rest().iter().take_while(blank).count();
        self.skip(count);
        count > 0
    }

    /// Takes a name: "of ASCII letters, digits and `. - _ :`, the first no digit, `.` or `-`".
    pub fn name(&mut self) -> Result<&'a str, Stop> {
        let first = |byte: u8| byte.is_ascii_alphabetic() || matches!(byte, b'_' | b':');
        let other = |byte: u8| first(byte) || byte.is_ascii_digit() || matches!(byte, b'.' | b'-');
        if !first(self.peek()?) {
            return Err(Stop::Grammar);
        }
        let rest = self.rest();
        let length = rest.iter().take_while(|byte| other(**byte)).count();
        self.skip(length);
        Ok(std::str::from_utf8(&rest[..length]).expect("a name is ASCII"))
    }

    /// Takes a character that XML allows. "a raw CR LF or CR is one line feed".
    pub fn character(&mut self) -> Result<char, Stop> {
        let rest = self.rest();
        let character = first_character(rest)?;
        if !xml_allows(character as u32) {
            return Err(Stop::Forbidden);
        }
        self.skip(if rest.starts_with(b"\r\n") { 2 } else { character.len_utf8() });
        Ok(if character == '\r' { '\n' } else { character })
    }

    /// Takes the comment that begins here, if one does; whether one did.
    pub fn comment(&mut self) -> Result<bool, Fault> {
        match self.rest() {
            b"<" => Err(self.at_end(Reason::CutTag)),
            b"<!" | b"<!-" => Err(self.at_end(Reason::CutComment)),
            [b'<', b'!', b'-', b'-', ..] => {
                self.skip(4);
                self.comment_inside().map(|()| true)
            }
            [b'<', b'!' | b'?', ..] => Err(Reason::NoComment.at(self.place)),
            _ => Ok(false),
        }
    }

    /// Takes a comment's characters and its `-->`.
    fn comment_inside(&mut self) -> Result<(), Fault> {
        loop {
            let place = self.place;
            match self.rest() {
                [b'-', b'-', b'>', ..] => {
                    self.skip(3);
                    return Ok(());
                }
                // The third byte may still be `>`.
                [b'-', b'-'] => return Err(self.at_end(Reason::CutComment)),
                [b'-', b'-', ..] => return Err(Reason::TwoHyphens.at(place)),
                _ => self.character().map_err(|stop| match stop {
                    Stop::Cut => self.at_end(Reason::CutComment),
                    Stop::Forbidden => Reason::ForbiddenCharacter.at(place),
                    _ => Reason::NoUtf8.at(place),
                })?,
            };
        }
    }

    /// "the end of a cut text".
    pub fn at_end(&self, reason: Reason) -> Fault {
        reason.at(self.text.len())
    }
}

/// The character with which the bytes begin; cut where they end inside it.
fn first_character(bytes: &[u8]) -> Result<char, Stop> {
    let longest = &bytes[..bytes.len().min(4)];
    let valid = match std::str::from_utf8(longest) {
        Ok(valid) => valid,
        Err(error) if error.valid_up_to() > 0 => {
            std::str::from_utf8(&longest[..error.valid_up_to()]).expect("UTF-8 so far")
        }
        Err(error) if error.error_len().is_none() => return Err(Stop::Cut),
        Err(_) => return Err(Stop::NoUtf8),
    };
    valid.chars().next().ok_or(Stop::Cut)
}
