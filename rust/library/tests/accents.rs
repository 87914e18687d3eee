//! Order 2 of document 02, "Accents stay with their letters": 23, and the cuts next to it that are
//! accepted.

use xliff_desk::{split, Reason, Refusal};

const REFUSED: Result<Vec<u8>, Refusal> = Err(Refusal { reason: Reason::AccentParted, place: 0 });

/// What the output holds before a call.
const NO_RESULT: u8 = 0xA5;

/// `SG` with a source and a target, the two texts given.
fn segment(id: u8, source: &str, target: &str) -> Vec<u8> {
    let text = |text: &str| [&[b'T', b'X', 0, text.len() as u8], text.as_bytes()].concat();
    [vec![b'S', b'G', 0, id, b'-', b'T'], text(source), vec![b'T', b'G', 0, id], text(target)]
        .concat()
}

fn unit(segments: &[Vec<u8>]) -> Vec<u8> {
    [b"UNY".to_vec(), segments.concat(), b"UE".to_vec()].concat()
}

/// A split of a unit of these two texts: the result, and behind it (where refused, from the first
/// byte on) the output is as it was.
fn cut(source: &str, target: &str, source_cut: u16, target_cut: u16) -> Result<Vec<u8>, Refusal> {
    let (table, mut out) = (unit(&[segment(1, source, target)]), [NO_RESULT; 100]);
    let answer = split(&table, 1, source_cut, target_cut, 2, &mut out);
    let (result, behind) = out.split_at(answer.unwrap_or(0));
    assert!(behind.iter().all(|&byte| byte == NO_RESULT));
    answer.map(|_| result.to_vec())
}

#[test]
fn a_source_cut_that_parts_an_accent() {
    assert_eq!(cut("fe\u{301}e", "xy", 2, 1), REFUSED);
    // between two accents, whatever the target cut is
    for target_cut in 0..=2 {
        assert_eq!(cut("fe\u{301}\u{302}e", "xy", 3, target_cut), REFUSED);
    }
}

#[test]
fn a_target_cut_that_parts_an_accent() {
    assert_eq!(cut("xy", "fe\u{301}e", 1, 2), REFUSED);
    assert_eq!(cut("xy", "fe\u{301}\u{302}", 1, 3), REFUSED);
    assert_eq!(cut("fe\u{301}e", "fe\u{301}e", 2, 2), REFUSED);
}

/// "U+0300 to U+036F".
#[test]
fn the_first_and_the_last_accent() {
    for accented in ["e\u{300}", "e\u{36F}"] {
        assert_eq!(cut(accented, "xy", 1, 1), REFUSED);
        assert_eq!(cut("xy", accented, 1, 1), REFUSED);
    }
    for other in ["\u{2FF}", "\u{370}"] {
        let halves = unit(&[segment(1, "e", "x"), segment(2, other, "y")]);
        assert_eq!(cut(&format!("e{other}"), "xy", 1, 1), Ok(halves));
        let halves = unit(&[segment(1, "x", "e"), segment(2, "y", other)]);
        assert_eq!(cut("xy", &format!("e{other}"), 1, 1), Ok(halves));
    }
}

/// Before and behind a letter with its accents, where they stay together.
#[test]
fn cuts_around_an_accented_letter() {
    let text = "fe\u{301}\u{302}e";
    let before = unit(&[segment(1, "f", "f"), segment(2, "e\u{301}\u{302}e", "e\u{301}\u{302}e")]);
    assert_eq!(cut(text, text, 1, 1), Ok(before));
    let behind = unit(&[segment(1, "fe\u{301}\u{302}", "fe\u{301}\u{302}"), segment(2, "e", "e")]);
    assert_eq!(cut(text, text, 4, 4), Ok(behind));
}

/// "the item before it is a code point of text": behind a `CP` and a marker an accent may be cut
/// off, and from a target's start.
#[test]
fn an_accent_behind_no_text() {
    let accented = "TX\0\u{2}\u{301}".as_bytes();
    for before in [b"CP\0\0\0\x01".as_slice(), b"PH\0\x07\0\0\0\0YY-Y", b"IS\0\x07\0\0\0\0YYYY"] {
        let table = [b"UNYSG\0\x01-I", before, accented, b"UE"].concat();
        let halves = [b"UNYSG\0\x01-I", before, b"SG\0\x02-I", accented, b"UE"].concat();
        let mut out = [NO_RESULT; 100];
        assert_eq!(split(&table, 1, 1, 0, 2, &mut out), Ok(halves.len()));
        assert_eq!(out[..halves.len()], halves);
    }
    let accent_first = [b"UNYSG\0\x01-ITX\0\x02xyTG\0\x01", accented, b"UE"].concat();
    assert!(split(&accent_first, 1, 1, 0, 2, &mut [0; 100]).is_ok());
}

/// "23, in split after 13 and before 14": id 1 is taken, and the output has no room.
#[test]
fn after_13_and_before_14() {
    let table = unit(&[segment(1, "e\u{301}", "xy")]);
    let refused = |source_cut: u16, target_cut: u16| {
        split(&table, 1, source_cut, target_cut, 1, &mut []).unwrap_err().reason
    };
    assert_eq!(refused(1, 1), Reason::AccentParted);
    assert_eq!(refused(1, 3), Reason::BadCut);
    assert_eq!(refused(2, 1), Reason::BadCut);
}
