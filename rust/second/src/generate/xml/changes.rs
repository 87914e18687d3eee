//! Changes to a document, so that it leaves the subset of order 1, or nearly.

use super::document::{Attribute, Piece, Tag};
use crate::generate::Random;

/// Names of attributes that some element has, and some that none has. In these lists `|` stands
/// between two choices.
const ATTRIBUTES: &[u8] = b"id|startRef|copyOf|dataRef|dataRefStart|dataRefEnd|canCopy|canDelete\
    |canOverlap|canReorder|canResegment|isolated|translate|state|order|hex|x|ID|name|type|subState\
    |xml:space|xmlns|_";

/// Values that some attribute takes, and values just outside.
const VALUES: &[u8] = b"1|2|9|65535|0|00|01|65536|65537|99999|100000|131073|99999999999999999999\
    |-1|+1|1.0|| | 1|1 |1\t|\n1|A|\xD9\xA1|yes|no|Yes|YES|yes |firstNo|firstno|maybe|initial\
    |translated|Final|0001|001f|01F|00001|DFFF";

const ELEMENTS: &[u8] = b"unit|segment|ignorable|source|target|cp|ph|pc|sc|ec|mrk|sm|em|note|x|PC\
    |xlf:pc";

/// What may stand in no text of the subset, or not everywhere: characters, references, comments
/// and declarations, tags.
const FOREIGN: [&[u8]; 4] = [
    b"]]>|a]]>|]]|x| |\r\n|\x01|\x0B|\x7F|\xEF\xBB\xBF|\xEF\xBF\xBE|\xEF\xBF\xBF|\xFF|\xC3|\xE2\x82\
    |\xED\xA0\x80|\xF4\x90\x80\x80",
    b"&x;|&AMP;|&#0;|&#xD800;|&#X41;|&#;|&#x;|&#xG;|&;|& |&|&#x110000;|&#4294967361;|&#xFFFE;|&#65;\
    |&lt;|&amp",
    b"<!-- -- -->|<!--x--->|<!- -->|<!--\x01-->|<!--\xC3-->|<!--&x;-->|<![CDATA[x]]>|<?pi x?>\
    |<?xml version=\"1.0\"?>|<!DOCTYPE unit>",
    b"<x/>|<note/>|<segment>|</segment>|<segment/>|<source/>|<target/>|</source>|<unit id=\"1\"/>\
    |</unit>|<ph id=\"900\"> </ph>|<ph id=\"900\"><!----></ph>|<cp hex=\"0041\"/>|<pc id=\"900\"/>\
    |<ph/>|<ph id=900/>|<ph id/>|<ph id=\"900\"canCopy=\"no\"/>|< ph/>|<ph id='900\"/>\
    |<ph id=\"&x;\"/>|<ph id=\"900\" canCopy=\"&#0;\"/>|<ph id=\"&#57;00\"/>",
];

/// One of the choices of a list.
fn one_of<'a>(random: &mut Random, list: &'a [u8]) -> &'a [u8] {
    let choices: Vec<&[u8]> = list.split(|&byte| byte == b'|').collect();
    choices[random.below(choices.len())]
}

fn one_word(random: &mut Random, list: &[u8]) -> String {
    String::from_utf8_lossy(one_of(random, list)).into_owned()
}

/// One change.
pub fn change(random: &mut Random, pieces: &mut Vec<Piece>) {
    match random.below(12) {
        0..=3 => change_attribute(random, pieces),
        4 => rename(random, pieces),
        5 => {
            let at = random.below(pieces.len());
            pieces.remove(at);
        }
        6 => {
            let at = random.below(pieces.len());
            pieces.insert(at, pieces[at].clone());
        }
        7 => exchange(random, pieces),
        8 => drop_element(random, pieces),
        _ => {
            let place = place(random, pieces);
            pieces.insert(place, Piece::Bytes(foreign(random)));
        }
    }
    if pieces.is_empty() {
        pieces.push(Piece::Text(String::new()));
    }
}

fn foreign(random: &mut Random) -> Vec<u8> {
    let list = *random.pick(&FOREIGN);
    one_of(random, list).to_vec()
}

/// A text of nothing but such pieces, behind the beginning of a unit or not.
pub fn foreign_text(random: &mut Random) -> Vec<u8> {
    let begun: [&[u8]; 4] = [b"", b" ", b"<unit id=\"1\">", b"<unit id=\"1\"><segment><source>"];
    let mut text = random.pick(&begun).to_vec();
    (0..random.below(6)).for_each(|_| text.extend(foreign(random)));
    text
}

/// Mostly in a content, else anywhere, sometimes behind the unit.
fn place(random: &mut Random, pieces: &[Piece]) -> usize {
    let mut in_content = false;
    let mut places = Vec::new();
    for (at, piece) in pieces.iter().enumerate() {
        if in_content {
            places.push(at);
        }
        match piece {
            Piece::Start(tag) if is_content(&tag.name) => in_content = true,
            Piece::End(name) if is_content(name) => in_content = false,
            _ => {}
        }
    }
    match random.below(10) {
        0 => pieces.len(),
        1..=3 => random.below(pieces.len() + 1),
        _ if places.is_empty() => 0,
        _ => *random.pick(&places),
    }
}

fn is_content(name: &str) -> bool {
    matches!(name, "source" | "target")
}

/// A tag, if there is one.
fn any_tag<'a>(random: &mut Random, pieces: &'a mut [Piece]) -> Option<&'a mut Tag> {
    let mut tags: Vec<&mut Tag> = pieces
        .iter_mut()
        .filter_map(|piece| match piece {
            Piece::Start(tag) => Some(tag),
            _ => None,
        })
        .collect();
    let chosen = random.below(tags.len());
    (!tags.is_empty()).then(|| tags.swap_remove(chosen))
}

/// An attribute more, or one doubled, left out, renamed or with another value.
fn change_attribute(random: &mut Random, pieces: &mut [Piece]) {
    let (name, value) = (one_word(random, ATTRIBUTES), one_word(random, VALUES));
    let Some(tag) = any_tag(random, pieces) else { return };
    let attributes = &mut tag.attributes;
    if attributes.is_empty() || random.chance(15) {
        return attributes.push(Attribute { name, value, is_default: false });
    }
    let at = random.below(attributes.len());
    // It stands there, whatever its value was before.
    attributes[at].is_default = false;
    match random.below(9) {
        0 => attributes.push(attributes[at].clone()),
        1 => drop(attributes.remove(at)),
        2 => attributes[at].name = name,
        3..=5 => attributes[at].value = value,
        _ => attributes[at].value = fitting_value(random, &attributes[at]),
    }
}

/// Another value of the same sort, so that a rule may be broken in place of the subset.
fn fitting_value(random: &mut Random, attribute: &Attribute) -> String {
    let list: &[u8] = match attribute.name.as_str() {
        "hex" => b"0000|001F|FFFF|DFFF|0041|000D",
        "state" => b"initial|translated|reviewed|final",
        "canReorder" => b"yes|firstNo|no",
        _ if attribute.value.starts_with(|c: char| c.is_ascii_digit()) => b"1|2|3|4|5|9|20|65535",
        _ => b"yes|no",
    };
    one_word(random, list)
}

/// Another element, its end tag with it or not.
fn rename(random: &mut Random, pieces: &mut [Piece]) {
    let new = one_word(random, ELEMENTS);
    let with_end = random.chance(60);
    let Some(tag) = any_tag(random, pieces) else { return };
    let old = std::mem::replace(&mut tag.name, new.clone());
    if !with_end {
        return;
    }
    let is_end = |piece: &&mut Piece| matches!(piece, Piece::End(name) if *name == old);
    if let Some(Piece::End(name)) = pieces.iter_mut().find(is_end) {
        *name = new;
    }
}

/// Two pieces in each other's place, mostly neighbours.
fn exchange(random: &mut Random, pieces: &mut [Piece]) {
    let one = random.below(pieces.len());
    let other = if random.chance(60) { one + 1 } else { random.below(pieces.len()) };
    pieces.swap(one, other.min(pieces.len() - 1));
}

/// An element goes, up to the next end tag of its name; often a source.
fn drop_element(random: &mut Random, pieces: &mut Vec<Piece>) {
    let only_source = random.chance(50);
    let is_start = |piece: &Piece| match piece {
        Piece::Start(tag) => !only_source || tag.name == "source",
        _ => false,
    };
    let starts: Vec<usize> = (0..pieces.len()).filter(|&at| is_start(&pieces[at])).collect();
    if starts.is_empty() {
        return;
    }
    let start = *random.pick(&starts);
    let Piece::Start(Tag { name, .. }) = &pieces[start] else { return };
    let is_end = |piece: &Piece| matches!(piece, Piece::End(other) if other == name);
    let length = pieces[start..].iter().position(is_end).map_or(1, |at| at + 1);
    pieces.drain(start..start + length);
}
