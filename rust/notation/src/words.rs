//! The words of a line and what they say. `#` to the line's end is a comment.

use crate::fields::is_letter;

/// A word and the column at which it begins, counted from 1.
pub type Word<'a> = (usize, &'a str);

/// The column at which a line cannot be read, and why.
pub type Fault = (usize, String);

/// The words of a line: a text in quotation marks is one.
pub fn words(line: &str) -> Result<Vec<Word<'_>>, Fault> {
    let mut words = Vec::new();
    let mut at = 0;
    while let Some(first) = line[at..].chars().next() {
        let rest = &line[at..];
        let column = line[..at].chars().count() + 1;
        if first == '#' {
            break;
        }
        if first.is_whitespace() {
            at += first.len_utf8();
            continue;
        }
        let length = if first == '"' { quoted(rest) } else { plain(rest) };
        let length = length.ok_or((column, "the text has no closing quotation mark".into()))?;
        words.push((column, &rest[..length]));
        at += length;
    }
    Ok(words)
}

fn plain(line: &str) -> Option<usize> {
    Some(line.find(char::is_whitespace).unwrap_or(line.len()))
}

fn quoted(line: &str) -> Option<usize> {
    let mut escaped = false;
    for (at, character) in line.char_indices().skip(1) {
        match character {
            _ if escaped => escaped = false,
            '\\' => escaped = true,
            '"' => return Some(at + 1),
            _ => {}
        }
    }
    None
}

pub fn number((column, word): Word) -> Result<u16, Fault> {
    word.parse().map_err(|_| (column, format!("{word} is no number from 0 to 65535")))
}

pub fn letter((column, word): Word) -> Result<u8, Fault> {
    match word.as_bytes() {
        [letter] if is_letter(*letter) => Ok(*letter),
        _ => Err((column, format!("{word} is no letter"))),
    }
}

pub fn point((column, word): Word) -> Result<u32, Fault> {
    u32::from_str_radix(word, 16)
        .map_err(|_| (column, format!("{word} is no code point in hexadecimal")))
}

/// A text of at most 65,535 bytes, so many as its length of two bytes can say.
pub fn text((column, word): Word) -> Result<String, Fault> {
    let inside = word.strip_prefix('"').and_then(|word| word.strip_suffix('"'));
    let inside = inside.ok_or((column, format!("{word} is no text in quotation marks")))?;
    let mut text = String::new();
    let mut rest = inside.chars();
    while let Some(character) = rest.next() {
        text.push(match character {
            '\\' => escape(&mut rest).ok_or((column, "an unknown escape in the text".into()))?,
            other => other,
        });
    }
    if text.len() > 65535 {
        return Err((column, "the text has over 65,535 bytes".into()));
    }
    Ok(text)
}

/// As Rust writes them: `\"`, `\\`, `\n`, `\r`, `\t`, `\0`, `\'`, `\u{1F600}`.
fn escape(rest: &mut std::str::Chars) -> Option<char> {
    match rest.next()? {
        'n' => Some('\n'),
        'r' => Some('\r'),
        't' => Some('\t'),
        '0' => Some('\0'),
        'u' => {
            (rest.next()? == '{').then_some(())?;
            let digits: String = rest.take_while(|character| *character != '}').collect();
            char::from_u32(u32::from_str_radix(&digits, 16).ok()?)
        }
        same @ ('"' | '\\' | '\'') => Some(same),
        _ => None,
    }
}
