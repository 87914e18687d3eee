//! References: "the five XML entities, numeric references".

use super::fault::Reason;
use super::scanner::{Scanner, Stop};
use crate::table::xml_allows;

/// What a reference that is whole stands for, or why it stands for nothing.
pub type Meaning = Result<char, Reason>;

impl Scanner<'_> {
    /// Takes a reference, from its `&` to its `;`. Its meaning is judged "when the tag or
    /// reference is whole".
    pub fn reference(&mut self) -> Result<Meaning, Stop> {
        self.expect(b'&')?;
        let meaning = if self.peek()? == b'#' {
            self.skip(1);
            self.numeric()?
        } else {
            entity(self.name()?)
        };
        self.expect(b';')?;
        Ok(meaning)
    }

    /// "Numeric references may have leading zeros; `&#X41;` is 22."
    fn numeric(&mut self) -> Result<Meaning, Stop> {
        let base = if self.peek()? == b'x' {
            self.skip(1);
            16
        } else {
            10
        };
        let digit = |byte: u8| char::from(byte).to_digit(base);
        digit(self.peek()?).ok_or(Stop::Grammar)?;
        let mut code_point: u32 = 0;
        while let Some(digit) = self.peek().ok().and_then(digit) {
            // Digits without end name no code point either.
            code_point = code_point.saturating_mul(base).saturating_add(digit);
            self.skip(1);
        }
        let allowed = char::from_u32(code_point).filter(|_| xml_allows(code_point));
        Ok(allowed.ok_or(Reason::ForbiddenByReference))
    }
}

fn entity(name: &str) -> Meaning {
    match name {
        "amp" => Ok('&'),
        "lt" => Ok('<'),
        "gt" => Ok('>'),
        "apos" => Ok('\''),
        "quot" => Ok('"'),
        _ => Err(Reason::UnknownEntity),
    }
}
