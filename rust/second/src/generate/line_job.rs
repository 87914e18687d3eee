//! Jobs of one line of the line protocol.

use super::random::Random;
use crate::lines::{answered, in_digits};
use crate::operations::Outcome;
use crate::sheet::sheet;
use crate::xml::{read_xml, write_xml};

/// An output that every written text and every sheet fits: a text has at most 682 codes, of less
/// than 140 bytes each as a tag, and 64 parts; a sheet a first row for each part, and at most 6
/// bytes for each of a table.
pub const ENOUGH: usize = 100_000;

/// The kinds of jobs of one sort.
pub trait LineKind: Copy + PartialEq + 'static {
    const ALL: &'static [Self];
    /// How many seeded jobs of a hundred, in the sequence of `ALL`.
    const SHARES: &'static [usize];

    fn name(self) -> &'static str;
}

/// A job that is one line of the line protocol.
pub trait LineJob {
    type Kind: LineKind;

    fn kind(&self) -> Self::Kind;

    /// The line that asks.
    fn line(&self) -> String;

    /// The second implementation's answer.
    fn answer(&self) -> String;

    /// What it asks about, to be shown.
    fn about(&self) -> About<'_>;
}

#[derive(Clone, Copy, Debug, PartialEq, Eq)]
pub enum About<'a> {
    Xml(&'a [u8]),
    /// The request is empty where there is none.
    Table {
        table: &'a [u8],
        request: &'a [u8],
    },
}

/// The operations that take one input: a text or a table.
#[derive(Clone, Copy, Debug, PartialEq, Eq)]
pub enum LineOperation {
    ReadXml,
    WriteXml,
    Sheet,
}

impl LineOperation {
    /// Its word in the line protocol.
    pub fn word(self) -> &'static str {
        match self {
            LineOperation::ReadXml => "xmlread",
            LineOperation::WriteXml => "xmlwrite",
            LineOperation::Sheet => "sheet",
        }
    }

    pub fn run(self, input: &[u8], room: usize) -> Outcome {
        match self {
            LineOperation::ReadXml => read_xml(input, room),
            LineOperation::WriteXml => write_xml(input, room),
            LineOperation::Sheet => sheet(input, room),
        }
    }
}

/// Kinds of jobs for the operations that take one input.
pub trait InputKind: LineKind {
    fn operation(self) -> LineOperation;
}

/// One input and the length of the lent output.
#[derive(Clone, Debug)]
pub struct InputJob<Kind> {
    pub kind: Kind,
    pub room: usize,
    /// A text to read, or a table.
    pub input: Vec<u8>,
}

impl<Kind: InputKind> InputJob<Kind> {
    pub fn operation(&self) -> LineOperation {
        self.kind.operation()
    }

    /// The second implementation's answer.
    pub fn outcome(&self) -> Outcome {
        self.operation().run(&self.input, self.room)
    }
}

impl<Kind: InputKind> LineJob for InputJob<Kind> {
    type Kind = Kind;

    fn kind(&self) -> Kind {
        self.kind
    }

    fn line(&self) -> String {
        format!("{} {} {}", self.operation().word(), self.room, in_digits(&self.input))
    }

    fn answer(&self) -> String {
        answered(self.outcome())
    }

    fn about(&self) -> About<'_> {
        match self.operation() {
            LineOperation::ReadXml => About::Xml(&self.input),
            _ => About::Table { table: &self.input, request: b"" },
        }
    }
}

/// The length of an output: enough, or about what the result needs.
pub fn room(random: &mut Random, needed: usize, enough: usize) -> usize {
    match random.below(12) {
        0 => needed - 1,
        1 | 2 => needed,
        3 => needed + 1,
        4 => *random.pick(&[0, 1, needed / 2, needed.saturating_sub(7)]),
        _ => enough,
    }
}
