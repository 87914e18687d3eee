//! Rewrites for calls with a grant: of pairs and annotations in one part and in two, of lone halves
//! and of ids that have none.

use std::collections::BTreeMap;

use super::calls::Call;
use crate::generate::random::Random;
use crate::record::Inline;
use crate::table::Unit;

/// What has one id on one side: the part in which each record of it stands, and the first of them.
pub struct Found<'a> {
    pub side: u8,
    id: u16,
    parts: Vec<u16>,
    first: &'a Inline,
}

impl Found<'_> {
    /// Whether it is a pair or annotation of which both halves are there.
    fn is_whole(&self) -> bool {
        self.first.half().is_some() && self.parts.len() == 2
    }

    /// Whether it is whole and its halves stand in two parts.
    pub fn is_in_two_parts(&self) -> bool {
        self.is_whole() && self.parts[0] != self.parts[1]
    }

    fn is_lone(&self) -> bool {
        self.first.half().is_some() && self.parts.len() == 1
    }
}

/// The codes and annotations of a valid unit.
pub fn found(unit: &Unit) -> Vec<Found<'_>> {
    let mut found: BTreeMap<(u8, u16), Found> = BTreeMap::new();
    for (part, position) in unit.parts.iter().zip(1..) {
        let target = part.target.iter().flat_map(|target| &target.content);
        let target = target.map(|placed| (b'T', &placed.inline));
        let source = part.source.iter().map(|placed| (b'S', &placed.inline));
        for (side, first) in source.chain(target) {
            let Some(id) = first.id() else { continue };
            let new = Found { side, id, parts: Vec::new(), first };
            found.entry((side, id)).or_insert(new).parts.push(position);
        }
    }
    found.into_values().collect()
}

/// Mostly of a pair or annotation, with the letters that it takes.
pub fn rewrite_call(random: &mut Random, unit: &Unit) -> Call {
    let wanted: fn(&Found) -> bool = match random.below(20) {
        0..=4 => |found| found.is_whole() && !found.is_in_two_parts(),
        5..=13 => |found| found.is_in_two_parts(),
        14 => |found| !found.is_whole() && !found.is_lone(),
        15..=18 => |found| found.is_lone(),
        _ => return rewrite_of_any_id(random, unit),
    };
    let all = found(unit);
    let mut fitting: Vec<&Found> = all.iter().filter(|found| wanted(found)).collect();
    if fitting.is_empty() {
        fitting = all.iter().filter(|found| found.is_whole()).collect();
    }
    if fitting.is_empty() {
        return rewrite_of_any_id(random, unit);
    }
    let chosen = preferred(random, &fitting);
    let opposite = all.iter().find(|other| other.id == chosen.id && other.side != chosen.side);
    let side = side(random, chosen, opposite);
    let form = form(random, chosen.first);
    // Sometimes the positions are of the parts on the other side.
    let parts = opposite.filter(|_| random.chance(12)).map_or(&chosen.parts, |other| &other.parts);
    Call::new(request(side, chosen.id, form), parts.clone())
}

/// Mostly the side on which it stands; the other one often where it does not stand there.
fn side(random: &mut Random, chosen: &Found, opposite: Option<&Found>) -> u8 {
    let other_side = if chosen.side == b'S' { b'T' } else { b'S' };
    let other_percent = match (opposite, chosen.side) {
        (Some(_), _) => 3,
        (None, b'S') => 15,
        (None, _) => 65,
    };
    match random.below(100) {
        0..=4 => random.letter(b"XstP\0-"),
        choice if choice < 5 + other_percent => other_side,
        _ => chosen.side,
    }
}

/// One of a side and class that is drawn first, if there is one: annotations and targets are fewer.
fn preferred<'a>(random: &mut Random, fitting: &[&'a Found<'a>]) -> &'a Found<'a> {
    let (side, is_annotation) = (random.letter(b"ST"), random.chance(65));
    let is_preferred =
        |found: &&&Found| found.side == side && found.first.code().is_none() == is_annotation;
    let preferred: Vec<&Found> = fitting.iter().filter(is_preferred).copied().collect();
    let choices = if preferred.is_empty() { fitting } else { &preferred };
    choices[random.below(choices.len())]
}

/// The other form than this half has, mostly.
fn form(random: &mut Random, half: &Inline) -> u8 {
    let is_bracket = matches!(half.mark(), Some(b"PO") | Some(b"MO"));
    match random.below(20) {
        0 | 1 => random.letter(b"TNp\0-"),
        2 | 3 if is_bracket => b'P',
        2 | 3 => b'S',
        _ if is_bracket => b'S',
        _ => b'P',
    }
}

/// Of a part's id, 0 or any.
fn rewrite_of_any_id(random: &mut Random, unit: &Unit) -> Call {
    let place = random.below(unit.parts.len());
    let id = if random.chance(40) { unit.parts[place].id } else { random.number(30) };
    Call::new(request(random.letter(b"ST"), id, random.letter(b"PS")), vec![place as u16 + 1])
}

fn request(side: u8, id: u16, form: u8) -> Vec<u8> {
    [b"RW".as_slice(), &[side], &id.to_be_bytes(), &[form]].concat()
}
