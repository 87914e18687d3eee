//! What stands before a place up to which a text has no fault.

use super::elements::{CONTENTS, SPANNING};
use super::pieces::{first_piece, Form, Piece};

/// The elements around a place.
#[derive(Default)]
pub struct Open<'a> {
    /// Those that are open, the innermost last.
    pub names: Vec<&'a str>,
    /// The last one that ended inside the innermost, or outside all.
    pub ended: Option<&'a str>,
}

impl<'a> Open<'a> {
    pub fn pass(&mut self, form: Form, name: &'a str) {
        match form {
            Form::Start => self.names.push(name),
            Form::End => drop(self.names.pop()),
            Form::Short => {}
        }
        self.ended = (form != Form::Start).then_some(name);
    }

    /// Whether text may stand here: in source and target, and in pc and mrk.
    pub fn takes_text(&self) -> bool {
        let inside = self.names.last();
        inside.is_some_and(|name| CONTENTS.contains(name) || SPANNING.contains(name))
    }
}

pub struct Before<'a> {
    pub open: Open<'a>,
    /// The run of text directly before the place.
    pub run: &'a [u8],
    /// The comment or tag that is begun and not ended.
    pub begun: Option<&'a [u8]>,
}

impl<'a> Before<'a> {
    pub fn of(text: &'a [u8], place: usize) -> Before<'a> {
        let mut before = Before { open: Open::default(), run: b"", begun: None };
        let mut at = 0;
        while at < place {
            let piece = first_piece(&text[at..]).filter(|(_, length)| at + length <= place);
            before.run = b"";
            match piece {
                Some((Piece::Tag(form, name), _)) => before.open.pass(form, name),
                Some((Piece::Run(run), _)) => before.run = run,
                Some((Piece::Comment, _)) => {}
                None if text[at] == b'<' => before.begun = Some(&text[at..place]),
                None => before.run = &text[at..place],
            }
            at += piece.map_or(place - at, |(_, length)| length);
        }
        before
    }

    pub fn in_comment(&self) -> bool {
        self.begun.is_some_and(|bytes| bytes.starts_with(b"<!"))
    }

    /// The innermost element that is open.
    pub fn inside(&self) -> Option<&'a str> {
        self.open.names.last().copied()
    }

    pub fn unit_ended(&self) -> bool {
        self.open.names.is_empty() && self.open.ended.is_some()
    }

    pub fn takes_text(&self) -> bool {
        self.open.takes_text()
    }

    /// How many pc and mrk are open.
    pub fn depth(&self) -> usize {
        self.open.names.iter().filter(|name| SPANNING.contains(name)).count()
    }
}
