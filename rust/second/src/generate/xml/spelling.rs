//! A document spelled in one of the many ways that order 1 reads alike.

use super::document::{Piece, Tag};
use crate::generate::Random;

const BLANKS: [&str; 6] = [" ", " ", "\t", "\n", "\r", "\r\n"];

const COMMENTS: [&str; 9] = [
    "<!---->",
    "<!--c-->",
    "<!-- <unit> & &x; -->",
    "<!--a-b-->",
    "<!-->-->",
    "<!--- -->",
    "<!--\r\n-->",
    "<!--]]>-->",
    "<!--é😀-->",
];

struct Spelling<'a> {
    random: &'a mut Random,
    text: Vec<u8>,
    /// How many of a hundred choices are not the writer's.
    odd: usize,
    /// How many of a hundred attributes that may be left out are.
    left_out: usize,
    /// Inside source or target, where blanks are text.
    in_content: bool,
}

/// The document in any spelling.
pub fn spelled(random: &mut Random, pieces: &[Piece]) -> Vec<u8> {
    let odd = *random.pick(&[0, 4, 15, 40]);
    let left_out = *random.pick(&[0, 50, 100]);
    let mut spelling = Spelling { random, text: Vec::new(), odd, left_out, in_content: false };
    spelling.between();
    let mut at = 0;
    while let Some(piece) = pieces.get(at) {
        at += 1;
        match piece {
            Piece::Start(tag) => {
                let empty = matches!(pieces.get(at), Some(Piece::End(name)) if *name == tag.name);
                let short = empty && spelling.is_short(&tag.name);
                spelling.start(tag, short);
                at += usize::from(short);
            }
            Piece::End(name) => spelling.end(name),
            Piece::Text(text) => text.chars().for_each(|c| spelling.text_character(c)),
            Piece::Bytes(bytes) => spelling.text.extend(bytes),
        }
        spelling.between();
    }
    spelling.text
}

impl Spelling<'_> {
    fn oddly(&mut self) -> bool {
        self.random.chance(self.odd)
    }

    fn push(&mut self, text: &str) {
        self.text.extend(text.as_bytes());
    }

    fn blanks(&mut self) {
        while self.oddly() {
            let blank = *self.random.pick(&BLANKS);
            self.push(blank);
        }
    }

    fn comment(&mut self) {
        let comment = *self.random.pick(&COMMENTS);
        self.push(comment);
    }

    /// Comments, and blanks where they are no text.
    fn between(&mut self) {
        if !self.in_content {
            self.blanks();
        }
        if self.oddly() && self.random.chance(50) {
            self.comment();
            self.between();
        }
    }

    /// The writer's form of an empty element, or the other.
    fn is_short(&mut self, name: &str) -> bool {
        let written_long = matches!(name, "source" | "target" | "pc" | "mrk" | "unit");
        written_long == self.oddly()
    }

    fn start(&mut self, tag: &Tag, short: bool) {
        let mut attributes = tag.attributes.clone();
        attributes.retain(|a| !(a.is_default && self.random.chance(self.left_out)));
        if self.oddly() {
            self.random.shuffle(&mut attributes);
        }
        self.push("<");
        self.push(&tag.name);
        for attribute in &attributes {
            let blank = if self.oddly() { *self.random.pick(&BLANKS) } else { " " };
            self.push(blank);
            self.blanks();
            self.push(&attribute.name);
            self.blanks();
            self.push("=");
            self.blanks();
            self.value(&attribute.value);
        }
        self.blanks();
        self.push(if short { "/>" } else { ">" });
        if matches!(tag.name.as_str(), "source" | "target") {
            self.in_content = !short;
        }
    }

    fn end(&mut self, name: &str) {
        if matches!(name, "source" | "target") {
            self.in_content = false;
        }
        self.push("</");
        self.push(name);
        self.blanks();
        self.push(">");
    }

    fn value(&mut self, value: &str) {
        let quote = if self.oddly() { '\'' } else { '"' };
        self.text.push(quote as u8);
        for character in value.chars() {
            let marked = matches!(character, '<' | '&') || character == quote;
            if marked || (self.oddly() && self.random.chance(20)) {
                self.reference(character);
            } else {
                self.raw(character);
            }
        }
        self.text.push(quote as u8);
    }

    /// A character of text, raw or by a reference, sometimes with a comment behind it.
    fn text_character(&mut self, character: char) {
        let by_reference = match character {
            '\r' | '<' | '&' => true,
            // Raw, it would end a section, or make a line end with the byte before it.
            '>' if self.text.ends_with(b"]]") => true,
            '\n' if self.text.ends_with(b"\r") => true,
            '>' => !self.oddly(),
            _ => self.oddly() && self.random.chance(30),
        };
        match character {
            _ if by_reference => self.reference(character),
            '\n' if self.oddly() => {
                let line_end = *self.random.pick(&["\r", "\r\n", "\n"]);
                self.push(line_end);
            }
            other => self.raw(other),
        }
        if self.oddly() && self.random.chance(10) {
            self.comment();
        }
    }

    fn raw(&mut self, character: char) {
        self.push(character.encode_utf8(&mut [0; 4]));
    }

    /// One of the five entities, or a number with or without leading zeros.
    fn reference(&mut self, character: char) {
        let entities = [('&', "amp"), ('<', "lt"), ('>', "gt"), ('\'', "apos"), ('"', "quot")];
        let entity = entities.iter().find(|(named, _)| *named == character);
        if let Some((_, name)) = entity.filter(|_| !self.oddly()) {
            return self.push(&format!("&{name};"));
        }
        let zeros = if self.oddly() { "0".repeat(1 + self.random.below(8)) } else { String::new() };
        let code_point = character as u32;
        let reference = match self.random.below(3) {
            0 => format!("&#x{zeros}{code_point:X};"),
            1 if self.odd > 0 => format!("&#x{zeros}{code_point:x};"),
            _ => format!("&#{zeros}{code_point};"),
        };
        self.push(&reference);
    }
}
