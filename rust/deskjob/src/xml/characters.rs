//! Characters of XML.

/// The character at the head of these bytes, or what is wrong with it.
pub fn first_character(bytes: &[u8]) -> Result<char, String> {
    let chunk = bytes.utf8_chunks().next();
    let character = chunk.as_ref().and_then(|chunk| chunk.valid().chars().next());
    match character {
        Some(character) if is_allowed(character) => Ok(character),
        Some(character) => Err(format!("XML forbids U+{:04X}", character as u32)),
        None => Err(format!("{} is no UTF-8", hexadecimal(chunk.map_or(b"", |c| c.invalid())))),
    }
}

/// XML 1.0, production 2.
pub fn is_allowed(character: char) -> bool {
    match character {
        '\t' | '\n' | '\r' => true,
        '\u{FFFE}' | '\u{FFFF}' => false,
        _ => character >= ' ',
    }
}

fn hexadecimal(bytes: &[u8]) -> String {
    bytes.iter().map(|byte| format!("{byte:02X}")).collect::<Vec<_>>().join(" ")
}
