//! What stands at a place, as it is shown on a line.

use super::pieces::tag_length;

/// More characters are not shown.
const MOST: usize = 72;

/// The tag at the head of these bytes.
pub fn tag(bytes: &[u8]) -> String {
    short(&bytes[..tag_length(bytes).unwrap_or(bytes.len())])
}

/// These bytes on one line: lines are joined by a blank, other control characters stand as escapes.
pub fn short(bytes: &[u8]) -> String {
    // Enough for so many characters, however long each is and whatever blanks lines begin with.
    let text = String::from_utf8_lossy(&bytes[..bytes.len().min(16 * MOST)]);
    let one_line = text.split(['\r', '\n']).map(str::trim_ascii).filter(|line| !line.is_empty());
    let one_line = one_line.collect::<Vec<_>>().join(" ");
    let mut shown: String = one_line.chars().take(MOST).flat_map(visible).collect();
    if one_line.chars().count() > MOST {
        shown += "..";
    }
    shown
}

fn visible(character: char) -> Vec<char> {
    if character.is_control() || character == '\u{FEFF}' {
        return character.escape_unicode().collect();
    }
    vec![character]
}
