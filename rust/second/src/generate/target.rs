//! The targets of a generated unit: orders, the source's codes part by part or cut anew, lone
//! halves whose other half waits, copies and codes of their own.

use super::chains::{move_chains, spoil_chains};
use super::inline::{accents, annotation, character, code, cut_into, text, turn_to_brackets};
use super::random::{Ids, Random};
use super::source::Source;
use crate::record::{Half, Inline};

/// For each part the order and content of its target, if it has one.
pub type Targets = Vec<Option<(u16, Vec<Inline>)>>;

pub fn targets(random: &mut Random, ids: &mut Ids, source: &Source) -> Targets {
    let parts = source.contents.len();
    let percent = *random.pick(&[0, 30, 60, 80, 100, 100]);
    let with: Vec<usize> = (0..parts).filter(|_| random.chance(percent)).collect();
    let orders = orders(random, parts, &with);
    // In each case the contents stand in the sequence of `with`.
    let mut contents = if random.chance(65) {
        part_by_part(random, source, &with)
    } else {
        cut_anew(random, source, &with, &orders)
    };
    for content in &mut contents {
        edit(random, ids, source, content);
    }
    let mut targets: Targets = vec![None; parts];
    for ((part, order), content) in with.into_iter().zip(orders).zip(contents) {
        targets[part] = Some((order, content));
    }
    targets
}

/// Orders for the parts with target: their positions, or any others.
fn orders(random: &mut Random, parts: usize, with: &[usize]) -> Vec<u16> {
    if random.chance(45) {
        return with.iter().map(|&part| part as u16 + 1).collect();
    }
    let mut all: Vec<u16> = (1..=parts as u16).collect();
    random.shuffle(&mut all);
    all.truncate(with.len());
    if random.chance(40) {
        all.sort_unstable();
    }
    all
}

/// Each target holds what its part's source holds, some in other chains.
fn part_by_part(random: &mut Random, source: &Source, with: &[usize]) -> Vec<Vec<Inline>> {
    let mut contents = Vec::new();
    for &part in with {
        let mut content = source.contents[part].clone();
        for inline in &mut content {
            if matches!(inline, Inline::Text(_)) && random.chance(60) {
                *inline = text(random);
            }
        }
        if random.chance(20) {
            content.iter_mut().for_each(to_start_and_end);
        }
        match random.below(10) {
            0 => move_chains(random, &mut content),
            1 => spoil_chains(random, &mut content),
            _ => {}
        }
        contents.push(content);
    }
    contents
}

/// The source sequence without some of its records, cut at other places by rising order.
fn cut_anew(
    random: &mut Random,
    source: &Source,
    with: &[usize],
    orders: &[u16],
) -> Vec<Vec<Inline>> {
    let mut flat = Vec::new();
    for (part, content) in source.contents.iter().enumerate() {
        // A half of a part without target may wait there.
        let waits = !with.contains(&part);
        for inline in content {
            let other_half_elsewhere = inline.half().is_some()
                && content.iter().filter(|i| i.half().is_some() && i.id() == inline.id()).count()
                    == 1;
            let left_out = (waits && other_half_elsewhere && random.chance(50))
                || (inline.half().is_none() && random.chance(25));
            if !left_out {
                flat.push(inline.clone());
            }
        }
    }
    flat.iter_mut().for_each(to_start_and_end);
    let mut contents = cut_into(random, flat, with.len());
    for content in &mut contents {
        for &id in &source.nested {
            if random.chance(60) {
                turn_to_brackets(content, id);
            }
        }
    }
    // The first content goes to the lowest order.
    let mut rising: Vec<usize> = (0..with.len()).collect();
    rising.sort_by_key(|&i| orders[i]);
    let mut placed = vec![Vec::new(); with.len()];
    for (content, &i) in contents.into_iter().zip(&rising) {
        placed[i] = content;
    }
    placed
}

fn to_start_and_end(inline: &mut Inline) {
    let mark = match inline {
        Inline::Code(code) => &mut code.mark,
        Inline::Annotation(annotation) => &mut annotation.mark,
        _ => return,
    };
    *mark = match &*mark {
        b"PO" => *b"SC",
        b"PC" => *b"EC",
        b"MO" => *b"SM",
        b"MC" => *b"EM",
        other => *other,
    };
}

/// A translator's changes: copies, new codes and annotations, characters, accents that come first,
/// records left out.
pub fn edit(random: &mut Random, ids: &mut Ids, source: &Source, content: &mut Vec<Inline>) {
    for _ in 0..*random.pick(&[0, 0, 1, 2]) {
        let place = random.below(content.len() + 1);
        match random.below(8) {
            0 | 1 => add_copy(random, ids, source, content),
            2 => content.insert(place, character(random)),
            3 => content.insert(place, text(random)),
            4 => content.insert(0, accents(random)),
            5 => add_own(random, ids, content),
            _ if place < content.len() && content[place].half().is_none() => {
                content.remove(place);
            }
            _ => {}
        }
    }
}

/// A copy (copyOf) of a source code with canCopy Y, under a new id.
fn add_copy(random: &mut Random, ids: &mut Ids, source: &Source, content: &mut Vec<Inline>) {
    let copyable =
        |inline: &&Inline| inline.is_start() && inline.code().is_some_and(|c| c.can_copy == b'Y');
    let bases: Vec<&Inline> = source.contents.iter().flatten().filter(copyable).collect();
    if bases.is_empty() {
        return;
    }
    let base = *random.pick(&bases);
    let Some(of) = base.code() else { return };
    let id = ids.fresh(random);
    let mut start = of.clone();
    (start.id, start.copy_of) = (id, of.id);
    let place = random.below(content.len() + 1);
    if base.half() == Some(Half::Start) {
        start.mark = *b"SC";
        let mut end = start.clone();
        end.mark = *b"EC";
        let bracket = random.chance(50);
        let last = if bracket { place } else { place + random.below(content.len() + 1 - place) };
        content.insert(last, Inline::Code(end));
        content.insert(place, Inline::Code(start));
        if bracket {
            turn_to_brackets(content, id);
        }
    } else {
        content.insert(place, Inline::Code(start));
    }
}

/// A code or annotation that the source does not have.
fn add_own(random: &mut Random, ids: &mut Ids, content: &mut Vec<Inline>) {
    let id = ids.fresh(random);
    let place = random.below(content.len() + 1);
    match random.below(3) {
        0 => content.insert(place, code(b"PH", id, random)),
        1 => content.insert(place, code(b"IS", id, random)),
        _ => {
            content.insert(place, annotation(b"MC", id, random));
            content.insert(place, annotation(b"MO", id, random));
        }
    }
}
