//! Document 01: "The source sequence is all source contents in part order; the target
//! sequence is all target contents by rising order."

use crate::record::Inline;
use crate::table::{Placed, Target, Unit};

/// One inline record of a sequence: where it was read, and in which part it stands.
#[derive(Clone, Copy)]
pub struct Standing<'a> {
    pub offset: usize,
    pub part: usize,
    pub inline: &'a Inline,
}

#[derive(Clone, Copy, Debug, PartialEq, Eq)]
pub enum Side {
    Source,
    Target,
}

pub fn sequence(unit: &Unit, side: Side) -> Vec<Standing<'_>> {
    match side {
        Side::Source => source_sequence(unit),
        Side::Target => target_sequence(unit),
    }
}

pub fn source_sequence(unit: &Unit) -> Vec<Standing<'_>> {
    let contents = unit.parts.iter().enumerate();
    contents.flat_map(|(part, p)| standings(part, &p.source)).collect()
}

pub fn target_sequence(unit: &Unit) -> Vec<Standing<'_>> {
    let mut targets: Vec<(usize, &Target)> = Vec::new();
    for (part, p) in unit.parts.iter().enumerate() {
        targets.extend(p.target.as_ref().map(|target| (part, target)));
    }
    targets.sort_by_key(|(_, target)| target.order);
    targets.iter().flat_map(|(part, target)| standings(*part, &target.content)).collect()
}

fn standings(part: usize, content: &[Placed]) -> impl Iterator<Item = Standing<'_>> {
    content.iter().map(move |p| Standing { offset: p.offset, part, inline: &p.inline })
}
