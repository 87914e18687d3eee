//! Document 02, order 1, "Units as XML": "a reader and writer for `<unit>` and the elements of
//! source document 000 inside it that our table holds."

mod attributes;
mod elements;
mod fault;
mod pieces;
mod reader;
mod references;
mod scanner;
mod tags;
pub mod words;
mod writer;

pub use fault::{Fault, Reason};
pub use reader::{read_xml, unit_of};
pub use writer::write_xml;

/// "to depth 32 of pc and mrk".
pub const MOST_DEPTH: usize = 32;
