//! One tag by XML's grammar: its attributes with their values, or what breaks it.

use super::characters::first_character;
use super::pieces::{first_name, Form};
use super::references::first_reference;

pub struct Tag<'a> {
    pub form: Form,
    pub name: &'a str,
    pub attributes: Vec<Attribute<'a>>,
}

pub struct Attribute<'a> {
    pub name: &'a str,
    /// References in it stand for their characters.
    pub value: String,
}

impl Tag<'_> {
    /// The value of an attribute, if it is there.
    pub fn value(&self, name: &str) -> Option<&str> {
        let found = self.attributes.iter().find(|attribute| attribute.name == name);
        found.map(|attribute| attribute.value.as_str())
    }
}

/// The tag at the head of these bytes, or what is wrong with it.
pub fn read(bytes: &[u8]) -> Result<Tag<'_>, String> {
    let (mark, rest) = match bytes {
        [b'<', b'/', rest @ ..] => ("</", rest),
        rest => ("<", &rest[1..]),
    };
    let name = first_name(rest).ok_or(broken(&format!("no name stands behind {mark}")))?;
    let mut reader = Reader { rest: &rest[name.len()..], behind: name.to_string() };
    let mut attributes = Vec::new();
    let form = if mark == "</" { reader.end()? } else { reader.start(&mut attributes)? };
    Ok(Tag { form, name, attributes })
}

fn broken(how: &str) -> String {
    format!("no tag of XML: {how}")
}

/// The rest of a tag, and in words what stands before it.
struct Reader<'a> {
    rest: &'a [u8],
    behind: String,
}

impl<'a> Reader<'a> {
    fn takes(&mut self, bytes: &[u8]) -> bool {
        let rest = self.rest.strip_prefix(bytes);
        self.rest = rest.unwrap_or(self.rest);
        rest.is_some()
    }

    /// Takes blanks; whether there were any.
    fn blanks(&mut self) -> bool {
        let count = self.rest.iter().take_while(|byte| b" \t\r\n".contains(byte)).count();
        self.rest = &self.rest[count..];
        count > 0
    }

    fn end(&mut self) -> Result<Form, String> {
        self.blanks();
        if !self.takes(b">") {
            return Err(broken(&format!("no > stands behind {}", self.behind)));
        }
        Ok(Form::End)
    }

    fn start(&mut self, attributes: &mut Vec<Attribute<'a>>) -> Result<Form, String> {
        loop {
            let after_blanks = self.blanks();
            if self.takes(b">") {
                return Ok(Form::Start);
            }
            if self.takes(b"/>") {
                return Ok(Form::Short);
            }
            let name = first_name(self.rest).filter(|_| after_blanks);
            let none = format!("behind {} neither an attribute nor > nor /> stands", self.behind);
            attributes.push(self.attribute(name.ok_or(broken(&none))?)?);
        }
    }

    /// Takes a name that stands there, `=` and a value in quotes.
    fn attribute(&mut self, name: &'a str) -> Result<Attribute<'a>, String> {
        self.rest = &self.rest[name.len()..];
        self.blanks();
        if !self.takes(b"=") {
            return Err(broken(&format!("no = stands behind {name}")));
        }
        self.blanks();
        let quote = self.rest.first().copied().filter(|byte| b"\"'".contains(byte));
        let quote = quote.ok_or(broken(&format!("the value of {name} stands in no quotes")))?;
        self.rest = &self.rest[1..];
        let value = self.value(quote).map_err(|how| format!("in the value of {name}: {how}"))?;
        self.behind = format!("the value of {name}");
        Ok(Attribute { name, value })
    }

    /// Takes a value and the quote behind it.
    fn value(&mut self, quote: u8) -> Result<String, String> {
        let mut value = String::new();
        loop {
            let (character, length) = match self.rest.first() {
                Some(byte) if *byte == quote => break,
                Some(b'<') => return Err("< is written &lt;".into()),
                Some(b'&') => first_reference(self.rest)?,
                Some(_) => first_character(self.rest).map(|c| (as_blank(c), c.len_utf8()))?,
                None => return Err("no quote stands behind it".into()),
            };
            value.push(character);
            self.rest = &self.rest[length..];
        }
        self.rest = &self.rest[1..];
        Ok(value)
    }
}

/// A line's end is a blank in a value, and so is a tab.
fn as_blank(character: char) -> char {
    if matches!(character, '\t' | '\r' | '\n') {
        return ' ';
    }
    character
}
