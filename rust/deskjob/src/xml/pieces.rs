//! A text as a row of comments, tags, and the runs of text between them. Up to its first fault each
//! text is such a row.

#[derive(Clone, Copy, Debug, PartialEq, Eq)]
pub enum Form {
    /// `<pc ..>`
    Start,
    /// `</pc>`
    End,
    /// `<pc ../>`
    Short,
}

#[derive(Clone, Copy, Debug, PartialEq, Eq)]
pub enum Piece<'a> {
    Comment,
    Tag(Form, &'a str),
    Run(&'a [u8]),
}

/// The piece at the head of a text, and its length; nothing if the text ends before the piece does.
pub fn first_piece(text: &[u8]) -> Option<(Piece<'_>, usize)> {
    match text {
        [] => None,
        [b'<', b'!', ..] => Some((Piece::Comment, comment_length(text)?)),
        [b'<', ..] => {
            let length = tag_length(text)?;
            Some((tag(&text[..length]), length))
        }
        _ => {
            let length = run_length(text);
            Some((Piece::Run(&text[..length]), length))
        }
    }
}

fn comment_length(text: &[u8]) -> Option<usize> {
    let inside = text.get(4..)?;
    inside.windows(3).position(|bytes| bytes == b"-->").map(|at| 4 + at + 3)
}

/// Up to the first `>` that stands in no quotes.
pub fn tag_length(text: &[u8]) -> Option<usize> {
    let mut quote = None;
    let ends = |byte: &u8| match (quote, byte) {
        (None, b'"' | b'\'') => {
            quote = Some(*byte);
            false
        }
        (Some(open), _) => {
            quote = quote.filter(|_| *byte != open);
            false
        }
        (None, _) => *byte == b'>',
    };
    text.iter().position(ends).map(|at| at + 1)
}

/// Up to the next tag or comment, or the text's end.
pub fn run_length(text: &[u8]) -> usize {
    text.iter().position(|byte| *byte == b'<').unwrap_or(text.len())
}

fn tag(bytes: &[u8]) -> Piece<'_> {
    let (form, at) = match bytes {
        [b'<', b'/', ..] => (Form::End, 2),
        [.., b'/', b'>'] => (Form::Short, 1),
        _ => (Form::Start, 1),
    };
    Piece::Tag(form, first_name(&bytes[at..]).unwrap_or_default())
}

/// The name at the head of these bytes: of ASCII letters, digits and `. - _ :`, the first no digit,
/// `.` or `-`.
pub fn first_name(bytes: &[u8]) -> Option<&str> {
    let begins = |byte: u8| byte.is_ascii_alphabetic() || matches!(byte, b'_' | b':');
    let other = |byte: u8| begins(byte) || byte.is_ascii_digit() || matches!(byte, b'.' | b'-');
    if !begins(*bytes.first()?) {
        return None;
    }
    let length = bytes.iter().take_while(|byte| other(**byte)).count();
    std::str::from_utf8(&bytes[..length]).ok()
}
