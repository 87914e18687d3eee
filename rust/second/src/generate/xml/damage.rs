//! Damage to the bytes of a text.

use crate::generate::Random;
use crate::xml::unit_of;

/// Bytes that mean something to XML, and some that never do.
const BYTES: &[u8] = b"<>/&;\"'= \t\r\n-!?[]#x0159aAeysid\0\x01\x7F\xC3\xE2\xED\xEF\xF4\xFF";

/// What means something in a value. `|` stands between two choices.
const IN_VALUES: &str = "&x;|&#0;|&#xD800;|&#X41;|&#;|&;|&|&lt;|&#49;|&#x31;|&#10;|&am|<|<|>|\r\n";

/// A byte changed, dropped, inserted or doubled, a piece of the text dropped or copied, or a
/// reference or the like put into a value.
pub fn damage(random: &mut Random, text: &mut Vec<u8>) {
    if text.is_empty() {
        return;
    }
    let place = random.below(text.len());
    match random.below(11) {
        0 | 1 => text[place] = random.letter(BYTES),
        2 => text[place] ^= 1 << random.below(8),
        3 => drop(text.remove(place)),
        4 | 5 => text.insert(place, random.letter(BYTES)),
        6 => text.insert(place, text[place]),
        7 | 8 => {
            put_into_value(random, text);
        }
        9 => {
            let end = (place + 1 + random.below(30)).min(text.len());
            text.drain(place..end);
        }
        _ => {
            let end = (place + 1 + random.below(30)).min(text.len());
            let copied = text[place..end].to_vec();
            let to = random.below(text.len() + 1);
            text.splice(to..to, copied);
        }
    }
}

/// The text cut: anywhere; behind a byte that opens a reference, a comment or a character; behind
/// a reference in a value; or shortly behind the text's own fault, so that what is at fault is
/// seldom whole.
pub fn cut(random: &mut Random, text: &mut Vec<u8>) {
    let anywhere = random.below(text.len() + 1);
    let place = match random.below(7) {
        0 => behind(random, text, |byte| byte == b'&'),
        1 => behind(random, text, |byte| byte >= 0xC0),
        2 => behind(random, text, |byte| byte == b'!'),
        3 => unit_of(text).err().map(|fault| fault.place + random.below(24)),
        4 => put_into_value(random, text).map(|end| end + random.below(3)),
        _ => None,
    };
    text.truncate(place.unwrap_or(anywhere).min(text.len()));
}

/// A place one to three bytes behind a byte of this kind, if there is one.
fn behind(random: &mut Random, text: &[u8], opens: impl Fn(u8) -> bool) -> Option<usize> {
    let places: Vec<usize> = (0..text.len()).filter(|&place| opens(text[place])).collect();
    (!places.is_empty()).then(|| random.pick(&places) + 1 + random.below(3))
}

/// Puts a reference or the like before or behind a quote, so mostly into a value; where it ends.
fn put_into_value(random: &mut Random, text: &mut Vec<u8>) -> Option<usize> {
    let is_quote = |place: &usize| matches!(text[*place], b'"' | b'\'');
    let quotes: Vec<usize> = (0..text.len()).filter(is_quote).collect();
    if quotes.is_empty() {
        return None;
    }
    let place = random.pick(&quotes) + random.below(2);
    let choices: Vec<&str> = IN_VALUES.split('|').collect();
    let put = *random.pick(&choices);
    text.splice(place..place, put.bytes());
    Some(place + put.len())
}
