//! Requests after a table: mostly with arguments that the operation takes, also wrong ones.

use std::ops::Range;

use super::damage::bytes;
use super::random::Random;
use super::set_target::set_target_request;
use crate::desk::read_request;
use crate::operations::content::{is_accent, items};
use crate::operations::Operation;
use crate::record::{Half, Inline};
use crate::rejoin::Split;
use crate::rules::check;
use crate::table::{Part, Placed, Unit};
use crate::MOST_BYTES;

/// The table and this many requests, each made for the table that the ones before leave.
pub fn request_list(random: &mut Random, table: Vec<u8>, count: usize) -> Vec<u8> {
    let mut job = table.clone();
    let mut current = table;
    for _ in 0..count {
        let Ok(unit) = check(&current) else { break };
        let request = request(random, &unit);
        if let Some((read, _)) = read_request(&request, 0) {
            if let Ok(result) = read.run(&current, MOST_BYTES) {
                current = result;
            }
        }
        job.extend(request);
    }
    job
}

/// A request of any operation.
fn request(random: &mut Random, unit: &Unit) -> Vec<u8> {
    match random.pick(&Operation::ALL) {
        Operation::Split => split_request(random, unit),
        Operation::Join => join_request(random, unit),
        Operation::SetTarget => set_target_request(random, unit),
        Operation::RemoveTarget => remove_request(random, unit),
        Operation::Rewrite => rewrite_request(random, unit),
    }
}

/// An unknown mark, or a request cut short.
pub fn unreadable(random: &mut Random, unit: &Unit) -> Vec<u8> {
    let mut request = request(random, unit);
    match random.below(3) {
        0 => {
            let marks: [&[u8; 2]; 7] = [b"UN", b"UE", b"sp", b"XX", b"PS", b"SG", b"\0\0"];
            request[..2].copy_from_slice(*random.pick(&marks));
        }
        1 => request.truncate(1 + random.below(request.len() - 1)),
        _ => {
            let length = 1 + random.below(9);
            request = bytes(random, length);
        }
    }
    request
}

fn numbers(mark: &[u8; 2], fields: &[u16]) -> Vec<u8> {
    let mut request = mark.to_vec();
    fields.iter().for_each(|field| request.extend(field.to_be_bytes()));
    request
}

/// The number of a part: mostly one that suits, else any, 0 or one too high.
pub fn part_number(random: &mut Random, unit: &Unit, suits: impl Fn(&Part) -> bool) -> u16 {
    let fitting: Vec<usize> = (0..unit.parts.len()).filter(|&i| suits(&unit.parts[i])).collect();
    let all = unit.parts.len() as u16;
    match random.below(20) {
        0 => random.number(all),
        1 => all + 1,
        2..=4 => 1 + random.below(all as usize) as u16,
        _ if fitting.is_empty() => 1 + random.below(all as usize) as u16,
        _ => 1 + *random.pick(&fitting) as u16,
    }
}

pub fn split_request(random: &mut Random, unit: &Unit) -> Vec<u8> {
    let Split { part, source_cut, target_cut, new_id } = split(random, unit);
    numbers(b"SP", &[part, source_cut, target_cut, new_id])
}

/// A split of any part, mostly one that can be cut.
pub fn split(random: &mut Random, unit: &Unit) -> Split {
    let open = |part: &Part| !unit.is_closed(part) && items(&part.source).len() > 1;
    let number = part_number(random, unit, open);
    let part = unit.part(number).unwrap_or(&unit.parts[0]);
    let source = items(&part.source);
    let target = part.target.as_ref().map_or(vec![], |target| items(&target.content));
    let source_cut = match random.below(12) {
        0 => *random.pick(&[0, source.len(), source.len() + 1, 65535]),
        _ => cut(random, &source, 1..source.len()),
    };
    let target_cut = match random.below(12) {
        0 => *random.pick(&[target.len() + 1, 65535]),
        1 => target.len(),
        _ => cut(random, &target, 0..target.len() + 1),
    };
    let (source_cut, target_cut) = (source_cut as u16, target_cut as u16);
    Split { part: number, source_cut, target_cut, new_id: new_id(random, unit) }
}

/// A cut of a content, one of these: any, or directly before an accent that stands behind text
/// (which is 23) or behind none.
fn cut(random: &mut Random, items: &[Inline], cuts: Range<usize>) -> usize {
    let behind_text = |cut: usize| cut > 0 && matches!(items[cut - 1], Inline::Text(_));
    let before_accent = |cut: &usize| items.get(*cut).is_some_and(is_accent);
    let (allowed, refused): (Vec<usize>, Vec<usize>) =
        cuts.clone().filter(before_accent).partition(|&cut| !behind_text(cut));
    let chosen = match random.below(10) {
        0 => refused,
        1..=4 => allowed,
        _ => vec![],
    };
    match chosen[..] {
        [] => cuts.start + random.below(cuts.len()),
        _ => *random.pick(&chosen),
    }
}

/// 0, an id that is used, or any.
fn new_id(random: &mut Random, unit: &Unit) -> u16 {
    let inline_ids = contents(unit).flatten().filter_map(|placed| placed.inline.id());
    let used: Vec<u16> = unit.parts.iter().map(|part| part.id).chain(inline_ids).collect();
    match random.below(10) {
        0..=1 => 0,
        2 | 3 => *random.pick(&used),
        4 => random.number(20),
        _ => 1000 + random.below(9000) as u16,
    }
}

fn contents(unit: &Unit) -> impl Iterator<Item = &Vec<Placed>> {
    unit.parts.iter().flat_map(|part| {
        std::iter::once(&part.source).chain(part.target.as_ref().map(|target| &target.content))
    })
}

pub fn join_request(random: &mut Random, unit: &Unit) -> Vec<u8> {
    let all = unit.parts.len();
    let order = |part: &Part| part.target.as_ref().map(|target| target.order);
    let suits = |first: &&usize| {
        let (one, two) = (&unit.parts[**first], &unit.parts[**first + 1]);
        let orders_fit = match (order(one), order(two)) {
            (Some(one), Some(two)) => one + 1 == two,
            _ => true,
        };
        !unit.is_closed(one) && !unit.is_closed(two) && orders_fit
    };
    let firsts: Vec<usize> = (0..all.saturating_sub(1)).collect();
    let fitting: Vec<&usize> = firsts.iter().filter(suits).collect();
    let number = match random.below(10) {
        0 => random.number(all as u16),
        1..=3 => 1 + random.below(all) as u16,
        _ if fitting.is_empty() => 1 + random.below(all) as u16,
        _ => 1 + **random.pick(&fitting) as u16,
    };
    numbers(b"JN", &[number])
}

pub fn remove_request(random: &mut Random, unit: &Unit) -> Vec<u8> {
    let number = part_number(random, unit, |part| part.target.is_some());
    numbers(b"RT", &[number])
}

fn rewrite_request(random: &mut Random, unit: &Unit) -> Vec<u8> {
    let mut halves: Vec<(u8, &Inline)> = Vec::new();
    for part in &unit.parts {
        halves.extend(part.source.iter().map(|placed| (b'S', &placed.inline)));
        let target = part.target.iter().flat_map(|target| &target.content);
        halves.extend(target.map(|placed| (b'T', &placed.inline)));
    }
    halves.retain(|(_, inline)| inline.half() == Some(Half::Start));
    let (mut side, mut id, mut form) =
        (random.letter(b"STSTX"), random.number(30), random.letter(b"PSPS-"));
    if !halves.is_empty() && !random.chance(8) {
        let (its_side, start) = *random.pick(&halves);
        let is_bracket = matches!(start.mark(), Some(b"PO") | Some(b"MO"));
        side = if random.chance(4) { random.letter(b"STX") } else { its_side };
        id = start.id().unwrap_or(id);
        form = match random.below(20) {
            0 => random.letter(b"PSTN\0"),
            _ if is_bracket => b'S',
            _ => b'P',
        };
    }
    [b"RW".as_slice(), &[side], &id.to_be_bytes(), &[form]].concat()
}
