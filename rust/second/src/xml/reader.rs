//! The reader: "22 [..] before 15, and 15 before the check of the table read".

use super::elements::{self, Element};
use super::fault::{Fault, Reason};
use super::pieces::Piece;
use super::scanner::Scanner;
use super::tags::{Form, Tag};
use super::MOST_DEPTH;
use crate::operations::{hand_out, Outcome};
use crate::record::Inline;
use crate::rules::check;
use crate::table::{Part, Placed, Target, Unit};

/// The table of the unit that the text spells.
pub fn read_xml(text: &[u8], room: usize) -> Outcome {
    let unit = unit_of(text)?;
    // "a table read past a limit is 15".
    let table = hand_out(&unit, room)?;
    check(&table)?;
    Ok(table)
}

/// The unit that the text spells, or the text's first fault (22). It keeps no rule yet.
pub fn unit_of(text: &[u8]) -> Result<Unit, Fault> {
    let scanner = &mut Scanner::new(text);
    let mut tag = scanner.tag_after_blanks()?;
    if !tag.opens("unit") {
        return Err(tag.misplaced());
    }
    let can_resegment = tag.fields(elements::unit)?;
    let parts = if tag.form == Form::Short { Vec::new() } else { parts(scanner)? };
    scanner.nothing_behind()?;
    Ok(Unit { can_resegment, parts })
}

/// The parts up to the unit's end tag.
fn parts(scanner: &mut Scanner) -> Result<Vec<Part>, Fault> {
    let mut parts = Vec::new();
    loop {
        let tag = scanner.tag_after_blanks()?;
        if tag.closes("unit") {
            return Ok(parts);
        }
        // Positions that are no two-byte numbers stand beyond the limit of 64 parts, so that the
        // table is 15 whatever order they give.
        let position = u16::try_from(parts.len() + 1).unwrap_or(u16::MAX);
        parts.push(part(scanner, tag, position)?);
    }
}

/// "One <source> element followed by Zero or one <target> element" (document 000).
fn part(scanner: &mut Scanner, mut tag: Tag, position: u16) -> Result<Part, Fault> {
    if tag.form == Form::End {
        return Err(tag.misplaced());
    }
    let name = tag.name;
    let (id, kind) = tag.fields(|attributes| elements::part(name, attributes))?;
    if tag.form == Form::Short {
        return Err(Reason::NoSource.at(tag.place));
    }
    let source = source(scanner, name)?;
    let mut next = scanner.tag_after_blanks()?;
    let mut target = None;
    if next.opens("target") {
        let order = next.fields(|attributes| elements::target(attributes, position))?;
        target = Some(Target { offset: 0, order, content: content(scanner, &next)? });
        next = scanner.tag_after_blanks()?;
    }
    if !next.closes(name) {
        return Err(next.misplaced());
    }
    Ok(Part { offset: 0, id, kind, source, target })
}

fn source(scanner: &mut Scanner, part: &str) -> Result<Vec<Placed>, Fault> {
    let mut tag = scanner.tag_after_blanks()?;
    if tag.closes(part) {
        return Err(Reason::NoSource.at(tag.place));
    }
    if !tag.opens("source") {
        return Err(tag.misplaced());
    }
    tag.fields(|_| Ok(()))?;
    content(scanner, &tag)
}

/// A content that is being read.
#[derive(Default)]
struct Content<'a> {
    records: Vec<Placed>,
    /// The pc and mrk that are open: their names and the records that close them.
    open: Vec<(&'a str, Inline)>,
}

/// The content of source or target, up to its end tag. "Element content calls for elements, and
/// an element calls for content": here the elements called for wait in a list.
fn content<'a>(scanner: &mut Scanner<'a>, around: &Tag) -> Result<Vec<Placed>, Fault> {
    let mut content = Content::default();
    if around.form == Form::Short {
        return Ok(content.records);
    }
    loop {
        match scanner.piece()? {
            Piece::Character(character) => content.text(character),
            Piece::Tag(tag) if tag.form != Form::End => content.element(scanner, tag)?,
            Piece::Tag(tag) => match content.open.pop() {
                Some((name, close)) if tag.closes(name) => content.record(close),
                None if tag.closes(around.name) => return Ok(content.records),
                _ => return Err(tag.misplaced()),
            },
        }
    }
}

impl<'a> Content<'a> {
    fn record(&mut self, inline: Inline) {
        self.records.push(Placed { offset: 0, inline });
    }

    fn text(&mut self, character: char) {
        let mut buffer = [0; 4];
        let bytes = character.encode_utf8(&mut buffer).as_bytes();
        match self.records.last_mut() {
            Some(Placed { inline: Inline::Text(text), .. }) => text.extend(bytes),
            _ => self.record(Inline::Text(bytes.to_vec())),
        }
    }

    fn element(&mut self, scanner: &mut Scanner<'a>, mut tag: Tag<'a>) -> Result<(), Fault> {
        let name = tag.name;
        match tag.fields(|attributes| elements::inline(name, attributes))? {
            Element::Single(inline) => {
                self.record(inline);
                if tag.form == Form::Start {
                    closed_at_once(scanner, name)?;
                }
            }
            // "Depth counts pc and mrk together within one content, the short form too."
            Element::Spanning { .. } if self.open.len() == MOST_DEPTH => {
                return Err(Reason::TooDeep.at(tag.place));
            }
            Element::Spanning { open, close } => {
                self.record(open);
                match tag.form {
                    Form::Short => self.record(close),
                    _ => self.open.push((name, close)),
                }
            }
        }
        Ok(())
    }
}

/// "`<ph ..></ph>` equals `<ph ../>`; inside only comments."
fn closed_at_once(scanner: &mut Scanner, name: &str) -> Result<(), Fault> {
    let tag = scanner.tag_after_comments()?;
    if !tag.closes(name) {
        return Err(tag.misplaced());
    }
    Ok(())
}
