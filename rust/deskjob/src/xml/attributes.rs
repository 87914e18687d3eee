//! What may be wrong with the attributes of a tag whose element the desk reads.

use super::elements::{value_of, Value};
use super::pieces::Form;
use super::tag::Tag;

pub fn doubled(tag: &Tag) -> Option<String> {
    let mut names: Vec<&str> = tag.attributes.iter().map(|attribute| attribute.name).collect();
    names.sort_unstable();
    let pair = names.windows(2).find(|pair| pair[0] == pair[1])?;
    Some(format!("{} stands twice", pair[0]))
}

pub fn unknown(tag: &Tag) -> Option<String> {
    let is_unknown = |name: &&str| value_of(tag.name, name).is_none();
    let name = tag.attributes.iter().map(|attribute| attribute.name).find(is_unknown)?;
    Some(format!("{name} is no attribute of {} that the desk reads", tag.name))
}

pub fn bad_value(tag: &Tag) -> Option<String> {
    tag.attributes.iter().find_map(|attribute| {
        let expected = unlike(value_of(tag.name, attribute.name)?, &attribute.value)?;
        Some(format!("the value of {} is {:?}, not {expected}", attribute.name, attribute.value))
    })
}

/// What a value should be, if it is not so.
fn unlike(value: Value, given: &str) -> Option<String> {
    let (fits, expected) = match value {
        Value::Number => (is_number(given), "a number from 1 to 65535 without leading zero".into()),
        Value::Digits => (is_digits(given), "four upper hexadecimal digits".into()),
        Value::Words(words) => (words.contains(&given), one_of(words)),
    };
    (!fits).then_some(expected)
}

fn is_number(value: &str) -> bool {
    let digits = value.bytes().all(|byte| byte.is_ascii_digit());
    digits && !value.starts_with('0') && value.parse::<u16>().is_ok()
}

fn is_digits(value: &str) -> bool {
    value.len() == 4 && value.bytes().all(|byte| matches!(byte, b'0'..=b'9' | b'A'..=b'F'))
}

/// `a, b or c`
pub fn one_of(words: &[impl AsRef<str>]) -> String {
    let words: Vec<&str> = words.iter().map(AsRef::as_ref).collect();
    match words.split_last() {
        Some((last, others)) if !others.is_empty() => format!("{} or {last}", others.join(", ")),
        _ => words.concat(),
    }
}

pub fn missing(tag: &Tag) -> Option<String> {
    if tag.form == Form::End {
        return None;
    }
    let required = match tag.name {
        "unit" | "ph" | "pc" | "sc" | "mrk" | "sm" => "id",
        "ec" if is_isolated(tag) => "id",
        "ec" | "em" => "startRef",
        "cp" => "hex",
        _ => return None,
    };
    let is_missing = tag.value(required).is_none();
    is_missing.then(|| format!("{} has no {required}, which it must have", in_words(tag)))
}

/// An ec has id or startRef, not both.
pub fn id_beside_start_ref(tag: &Tag) -> Option<String> {
    let both = tag.name == "ec" && tag.value("id").and(tag.value("startRef")).is_some();
    let other = if is_isolated(tag) { "startRef" } else { "id" };
    both.then(|| format!("{} has {other}, which it must not have", in_words(tag)))
}

fn is_isolated(tag: &Tag) -> bool {
    tag.value("isolated") == Some("yes")
}

fn in_words<'a>(tag: &Tag<'a>) -> &'a str {
    match tag.name {
        "ec" if is_isolated(tag) => "an isolated ec",
        "ec" => "an ec that is not isolated",
        name => name,
    }
}
