//! Tags and their attributes by XML's grammar.

use super::attributes::Attributes;
use super::fault::{Fault, Reason};
use super::scanner::{Scanner, Stop};

#[derive(Clone, Copy, Debug, PartialEq, Eq)]
pub enum Form {
    /// `<pc ..>`
    Start,
    /// `</pc>`
    End,
    /// `<pc ../>`
    Short,
}

pub struct Tag<'a> {
    /// Where its `<` stands.
    pub place: usize,
    pub form: Form,
    pub name: &'a str,
    pub attributes: Attributes<'a>,
}

impl<'a> Tag<'a> {
    pub fn opens(&self, name: &str) -> bool {
        self.form != Form::End && self.name == name
    }

    pub fn closes(&self, name: &str) -> bool {
        self.form == Form::End && self.name == name
    }

    /// What the attributes say; the tag is at fault for them. "other attributes not": none may be
    /// left.
    pub fn fields<T>(
        &mut self,
        read: impl FnOnce(&mut Attributes<'a>) -> Result<T, Reason>,
    ) -> Result<T, Fault> {
        let fields = read(&mut self.attributes);
        let all_read = self.attributes.none_left();
        fields.and_then(|fields| all_read.map(|()| fields)).map_err(|reason| reason.at(self.place))
    }

    /// What is wrong about a whole tag where it may not stand.
    pub fn misplaced(&self) -> Fault {
        let reason = if self.form == Form::End { Reason::EndTag } else { Reason::Element };
        reason.at(self.place)
    }
}

impl<'a> Scanner<'a> {
    /// Takes the tag that begins here. Where it breaks XML's grammar it is at fault; "Names,
    /// attributes, values and nesting are judged when the tag or reference is whole".
    pub fn tag(&mut self) -> Result<Tag<'a>, Fault> {
        let place = self.place();
        let tag = self.tag_by_grammar().map_err(|stop| match stop {
            Stop::Cut => self.at_end(Reason::CutTag),
            Stop::Nothing => Reason::ReferenceInValue.at(place),
            _ => Reason::BrokenTag.at(place),
        })?;
        match tag.attributes.fault {
            Some(reason) => Err(reason.at(place)),
            None => Ok(tag),
        }
    }

    fn tag_by_grammar(&mut self) -> Result<Tag<'a>, Stop> {
        let (place, mut attributes) = (self.place(), Attributes::default());
        self.expect(b'<')?;
        let is_end = self.peek()? == b'/';
        self.skip(usize::from(is_end));
        let name = self.name()?;
        let form = if is_end { self.end_tag()? } else { self.start_tag(&mut attributes)? };
        Ok(Tag { place, form, name, attributes })
    }

    /// Takes what stands behind the name of an end tag.
    fn end_tag(&mut self) -> Result<Form, Stop> {
        self.blanks();
        self.expect(b'>')?;
        Ok(Form::End)
    }

    /// Takes the attributes behind the name of a start tag, and its `>` or `/>`.
    fn start_tag(&mut self, attributes: &mut Attributes<'a>) -> Result<Form, Stop> {
        loop {
            let after_blanks = self.blanks();
            match self.peek()? {
                b'>' => {
                    self.skip(1);
                    return Ok(Form::Start);
                }
                b'/' => {
                    self.skip(1);
                    self.expect(b'>')?;
                    return Ok(Form::Short);
                }
                _ if after_blanks => self.attribute(attributes)?,
                _ => return Err(Stop::Grammar),
            }
        }
    }

    /// Takes a name, `=` and a value in quotes.
    fn attribute(&mut self, attributes: &mut Attributes<'a>) -> Result<(), Stop> {
        let name = self.name()?;
        self.blanks();
        self.expect(b'=')?;
        self.blanks();
        let value = self.value()?;
        attributes.add(name, value);
        Ok(())
    }

    /// Takes a value: "References in attribute values are decoded; values are never trimmed". One
    /// that names nothing is judged where it is whole, and its tag is blamed, cut or not.
    fn value(&mut self) -> Result<String, Stop> {
        let quote = self.peek()?;
        if quote != b'"' && quote != b'\'' {
            return Err(Stop::Grammar);
        }
        self.skip(1);
        let mut value = String::new();
        loop {
            let character = match self.peek()? {
                byte if byte == quote => {
                    self.skip(1);
                    return Ok(value);
                }
                b'<' => return Err(Stop::Grammar),
                b'&' => self.reference()?.map_err(|_| Stop::Nothing)?,
                _ => as_blank(self.character()?),
            };
            value.push(character);
        }
    }
}

/// "The same in attribute values, where tab and line feed become a blank."
fn as_blank(character: char) -> char {
    match character {
        '\t' | '\n' => ' ',
        other => other,
    }
}
