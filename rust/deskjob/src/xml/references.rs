//! References: what one stands for, or why it stands for nothing.

use super::characters::is_allowed;
use super::pieces::first_name;
use super::{shown, Finding};

/// The reference at the head of these bytes, which is at fault in a text.
pub fn finding(bytes: &[u8]) -> Finding {
    let wrong = match first_reference(bytes) {
        Err(wrong) => wrong,
        Ok(_) => "the desk does not read this reference here".into(),
    };
    Finding { shown: shown::short(&bytes[..length(bytes)]), wrong }
}

/// The character that the reference at the head of these bytes stands for, and the reference's
/// length; or what is wrong with it.
pub fn first_reference(bytes: &[u8]) -> Result<(char, usize), String> {
    match bytes.get(1) {
        Some(b'#') => numeric(&bytes[2..]),
        _ => entity(&bytes[1..]),
    }
}

/// What stands behind `&`.
fn entity(bytes: &[u8]) -> Result<(char, usize), String> {
    let name = first_name(bytes).ok_or("& begins no reference (a plain & is written &amp;)")?;
    if bytes.get(name.len()) != Some(&b';') {
        return Err(format!("no ; stands behind &{name} (a plain & is written &amp;)"));
    }
    let character = match name {
        "amp" => '&',
        "lt" => '<',
        "gt" => '>',
        "apos" => '\'',
        "quot" => '"',
        _ => return Err(format!("&{name}; is none of &amp; &lt; &gt; &apos; &quot;")),
    };
    Ok((character, 1 + name.len() + 1))
}

/// What stands behind `&#`.
fn numeric(bytes: &[u8]) -> Result<(char, usize), String> {
    let (base, digits) = match bytes {
        [b'x', digits @ ..] => (16, digits),
        digits => (10, digits),
    };
    let count = digits.iter().take_while(|byte| char::from(**byte).is_digit(base)).count();
    if count == 0 || digits.get(count) != Some(&b';') {
        return Err("a numeric reference is written as &#65; or &#x41;".into());
    }
    let number = std::str::from_utf8(&digits[..count]).ok();
    let code_point = number.and_then(|number| u32::from_str_radix(number, base).ok());
    let character = code_point.and_then(char::from_u32).filter(|character| is_allowed(*character));
    let length = 2 + (bytes.len() - digits.len()) + count + 1;
    Ok((character.ok_or("it names no character that XML allows")?, length))
}

/// Up to its `;`, or as far as it can be one.
fn length(bytes: &[u8]) -> usize {
    let inside = |byte: &&u8| byte.is_ascii_alphanumeric() || b"#_:.-".contains(byte);
    let end = 1 + bytes[1..].iter().take_while(inside).count();
    end + usize::from(bytes.get(end) == Some(&b';'))
}
