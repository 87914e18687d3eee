//! Bytes at fault: by what stands there, and where.

use super::characters::first_character;
use super::pieces::run_length;
use super::shown::{short, tag};
use super::Finding;

/// In a comment: `--`, or no character of XML.
pub fn in_comment(bytes: &[u8]) -> Finding {
    if bytes.starts_with(b"--") {
        let wrong = "-- may not stand in a comment, only at its end as -->".into();
        return Finding { shown: "--".into(), wrong };
    }
    no_character(bytes, "a comment")
}

/// In a text: `]]>`, or no character of XML.
pub fn in_text(bytes: &[u8]) -> Finding {
    if bytes.starts_with(b"]]>") {
        let wrong = "]]> may not stand in a text, it is written ]]&gt;".into();
        return Finding { shown: "]]>".into(), wrong };
    }
    no_character(bytes, "a text")
}

fn no_character(bytes: &[u8], place: &str) -> Finding {
    let wrong = match first_character(bytes) {
        Err(wrong) => wrong,
        Ok(_) => format!("the desk does not read this byte in {place}"),
    };
    Finding { shown: run(bytes), wrong }
}

/// `<!` or `<?` that begins no comment.
pub fn no_comment(bytes: &[u8]) -> Finding {
    let begun: [(&[u8], &str); 4] = [
        (b"<![CDATA[", "a CDATA section"),
        (b"<!DOCTYPE", "a document type declaration"),
        (b"<?xml ", "an XML declaration"),
        (b"<?", "a processing instruction"),
    ];
    let what = begun.iter().find(|(head, _)| bytes.starts_with(head)).map(|(_, what)| *what);
    let wrong = match what {
        Some(what) => format!("{what} is not read"),
        None => "<! begins no comment".into(),
    };
    let end = bytes.iter().position(|byte| *byte == b'>').map_or(bytes.len(), |at| at + 1);
    Finding { shown: short(&bytes[..end]), wrong }
}

pub fn behind_unit(bytes: &[u8]) -> Finding {
    let wrong = "behind the unit only blanks and comments may stand".into();
    Finding { shown: run(bytes), wrong }
}

/// Where no text may stand: in such an element, or around the unit.
pub fn no_text_here(bytes: &[u8], inside: Option<&str>) -> Finding {
    let wrong = match inside {
        None if bytes.starts_with(b"\xEF\xBB\xBF") => "a byte order mark is not read".into(),
        None => "before the unit only blanks and comments may stand".into(),
        Some("unit" | "segment" | "ignorable") => {
            "no text may stand here, only in source and target".into()
        }
        Some(empty) => format!("{empty} is an empty element: only comments may stand in it"),
    };
    Finding { shown: run(bytes), wrong }
}

/// The tag that begins here, or else what stands before the next.
fn run(bytes: &[u8]) -> String {
    if bytes.starts_with(b"<") {
        return tag(bytes);
    }
    short(&bytes[..run_length(bytes)])
}
