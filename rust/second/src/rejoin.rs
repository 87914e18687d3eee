//! Document 02, order 11, "Split and rejoin": "every list of accepted splits undone in reverse
//! sequence, each by its join, gives the original apart from those marks", the start and end
//! marks of "the pairs and annotations cut". What must come of it, by these words: no join is
//! run here.

use crate::desk::hexadecimal;
use crate::operations::content::items;
use crate::operations::{split, start_and_end};
use crate::record::{Class, Half, Inline};
use crate::rules::check;
use crate::rules::sequence::Side;
use crate::table::{Placed, Unit};
use crate::MOST_BYTES;

/// The arguments of a split.
#[derive(Clone, Copy, Debug, PartialEq, Eq)]
pub struct Split {
    pub part: u16,
    pub source_cut: u16,
    pub target_cut: u16,
    pub new_id: u16,
}

/// A valid table and splits of it that are accepted, each of the table that the one before left.
#[derive(Clone, Debug)]
pub struct Undoing {
    splits: Vec<Split>,
    /// The table, and after it what each split leaves.
    tables: Vec<Vec<u8>>,
}

impl Undoing {
    /// With no split yet.
    pub fn of(table: Vec<u8>) -> Undoing {
        Undoing { splits: Vec::new(), tables: vec![table] }
    }

    /// One split more, if it is accepted.
    pub fn add(&mut self, new: Split) -> bool {
        let Split { part, source_cut, target_cut, new_id } = new;
        let result = split(self.left(), part, source_cut, target_cut, new_id, MOST_BYTES);
        if let Ok(result) = result {
            self.tables.push(result);
            self.splits.push(new);
            return true;
        }
        false
    }

    /// The table that all splits leave.
    pub fn left(&self) -> &[u8] {
        self.tables.last().expect("at least the original")
    }

    pub fn original(&self) -> &[u8] {
        &self.tables[0]
    }

    /// Each split with the table that it was given.
    pub fn steps(&self) -> impl DoubleEndedIterator<Item = (Split, &[u8])> + ExactSizeIterator {
        self.splits.iter().copied().zip(self.tables.iter().map(Vec::as_slice))
    }

    /// The job: the splits, then their joins in reverse sequence.
    pub fn job(&self) -> Vec<u8> {
        let mut job = self.original().to_vec();
        let mut request = |mark: &[u8; 2], fields: &[u16]| {
            job.extend(mark);
            fields.iter().for_each(|field| job.extend(field.to_be_bytes()));
        };
        for (Split { part, source_cut, target_cut, new_id }, _) in self.steps() {
            request(b"SP", &[part, source_cut, target_cut, new_id]);
        }
        for (Split { part, .. }, _) in self.steps().rev() {
            request(b"JN", &[part]);
        }
        job
    }

    /// What the desk program must print for it: every join is accepted and as long as the table
    /// that its split was given; last, the original with the marks turned.
    pub fn printed(&self) -> Vec<u8> {
        let after_splits = self.tables[1..].iter();
        let after_joins = self.steps().rev().map(|(_, given)| given.len());
        let mut printed = String::new();
        for length in after_splits.map(Vec::len).chain(after_joins) {
            printed += &format!("OK {length}\n");
        }
        printed += &hexadecimal(&self.undone(0));
        printed.push('\n');
        printed.into_bytes()
    }

    /// The table that the split of this place was given, counted from 0, with the marks turned
    /// of all that its own cuts and later ones parted.
    pub fn undone(&self, place: usize) -> Vec<u8> {
        let mut cut = Vec::new();
        for (split, given) in self.steps().skip(place) {
            cut.extend(pairs_cut(given, split));
        }
        turned(unit(&self.tables[place]), &cut).write()
    }
}

fn unit(table: &[u8]) -> Unit {
    check(table).expect("accepted splits leave valid tables")
}

/// A pair or an annotation: the side on which it stands, its class and its id.
type Named = (Side, Class, u16);

/// "the pairs and annotations cut": a start before the cut of a content, its end behind it.
fn pairs_cut(table: &[u8], split: Split) -> Vec<Named> {
    let unit = unit(table);
    let part = unit.part(split.part).expect("accepted splits name a part");
    let mut named = cut_in(Side::Source, &part.source, split.source_cut);
    if let Some(target) = &part.target {
        named.extend(cut_in(Side::Target, &target.content, split.target_cut));
    }
    named
}

fn cut_in(side: Side, content: &[Placed], cut: u16) -> Vec<Named> {
    let items = items(content);
    let (before, behind) = items.split_at(cut as usize);
    let halves = |half: Half, items: &[Inline]| -> Vec<Named> {
        let of_half = items.iter().filter(|item| item.half() == Some(half));
        of_half.filter_map(|item| Some((side, item.class()?, item.id()?))).collect()
    };
    let ends = halves(Half::End, behind);
    halves(Half::Start, before).into_iter().filter(|start| ends.contains(start)).collect()
}

/// "now have start and end marks".
fn turned(mut unit: Unit, cut: &[Named]) -> Unit {
    let turn = |side: Side, content: &mut [Placed]| {
        for Placed { inline, .. } in content {
            if let (Some(class), Some(id)) = (inline.class(), inline.id()) {
                if cut.contains(&(side, class, id)) {
                    start_and_end(inline);
                }
            }
        }
    };
    for part in &mut unit.parts {
        turn(Side::Source, &mut part.source);
        if let Some(target) = &mut part.target {
            turn(Side::Target, &mut target.content);
        }
    }
    unit
}
