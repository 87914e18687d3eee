//! Content as items: "An item is one code point of text or one other inline record."

use crate::record::{Code, Inline};
use crate::table::Placed;

/// The content's items; a text item holds one code point.
pub fn items(content: &[Placed]) -> Vec<Inline> {
    let mut items = Vec::new();
    for placed in content {
        match &placed.inline {
            Inline::Text(text) => {
                let text = std::str::from_utf8(text).expect("the table was checked before");
                items.extend(text.chars().map(|c| Inline::Text(c.to_string().into_bytes())));
            }
            other => items.push(other.clone()),
        }
    }
    items
}

/// The content's codes, in its order.
pub fn codes(content: &[Placed]) -> impl Iterator<Item = &Code> {
    content.iter().filter_map(|placed| placed.inline.code())
}

/// Whether an item is an accent: document 02, order 2, "Some tools write an accent as a second code
/// point, U+0300 to U+036F".
pub fn is_accent(item: &Inline) -> bool {
    let Inline::Text(text) = item else { return false };
    let text = std::str::from_utf8(text).expect("the table was checked before");
    text.starts_with(|code_point| ('\u{300}'..='\u{36F}').contains(&code_point))
}

/// Items as records again: touching texts are one `TX`. The records stand in no table yet, so
/// their offsets are 0.
pub fn gather(items: impl IntoIterator<Item = Inline>) -> Vec<Placed> {
    let mut content: Vec<Placed> = Vec::new();
    for item in items {
        match (content.last_mut(), item) {
            (Some(Placed { inline: Inline::Text(before), .. }), Inline::Text(text)) => {
                before.extend(text);
            }
            (_, inline) => content.push(Placed { offset: 0, inline }),
        }
    }
    content
}
