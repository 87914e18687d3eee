//! The attributes of one tag, taken one by one: what is left over is unknown.

use std::collections::HashMap;

use super::fault::Reason;
use super::words::{letter_of, Words};

#[derive(Default)]
pub struct Attributes<'a> {
    values: HashMap<&'a str, String>,
    /// A doubled attribute.
    pub fault: Option<Reason>,
}

impl<'a> Attributes<'a> {
    pub fn add(&mut self, name: &'a str, value: String) {
        if self.values.insert(name, value).is_some() {
            self.fault = Some(Reason::DoubledAttribute);
        }
    }

    /// "Absent attributes take the draft's defaults (22 if required)".
    pub fn required(&mut self, name: &str) -> Result<String, Reason> {
        self.values.remove(name).ok_or(Reason::MissingAttribute)
    }

    /// An id, a reference or an order, if it is there.
    pub fn number(&mut self, name: &str) -> Result<Option<u16>, Reason> {
        self.values.remove(name).map(|value| decimal(&value)).transpose()
    }

    /// "an id, copyOf or dataRef of 0": absence.
    pub fn number_or_0(&mut self, name: &str) -> Result<u16, Reason> {
        Ok(self.number(name)?.unwrap_or(0))
    }

    pub fn required_number(&mut self, name: &str) -> Result<u16, Reason> {
        self.number(name)?.ok_or(Reason::MissingAttribute)
    }

    /// The letter of a word, or the default's where the attribute is absent.
    pub fn letter(&mut self, name: &str, words: &Words, default: u8) -> Result<u8, Reason> {
        match self.values.remove(name) {
            Some(word) => letter_of(words, &word).ok_or(Reason::BadValue),
            None => Ok(default),
        }
    }

    /// Whether all were taken.
    pub fn none_left(&self) -> Result<(), Reason> {
        if self.values.is_empty() {
            return Ok(());
        }
        Err(Reason::UnknownAttribute)
    }
}

/// "Ids and orders are decimal, 1 to 65535, no leading zero."
fn decimal(value: &str) -> Result<u16, Reason> {
    let digits = value.bytes().all(|byte| byte.is_ascii_digit());
    let number = value.parse().ok().filter(|_| digits && !value.starts_with('0'));
    number.ok_or(Reason::BadValue)
}
