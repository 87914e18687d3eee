//! The shown forms of markers, and rows that end before or behind one.

use super::*;

/// "A standalone code of id 7 shows as `{7}`, a start `{7`, an end `7}`; isolated ones and
/// annotations likewise."
#[test]
fn each_marker() {
    shows_in_both(&code(b"PH", 7), &["{7}"]);
    shows_in_both(&code(b"IS", 7), &["{7"]);
    shows_in_both(&code(b"IE", 7), &["7}"]);
    for [start, end] in [[b"PO", b"PC"], [b"SC", b"EC"]] {
        let pair = [code(start, 7), text("a"), code(end, 7)].concat();
        shows_in_both(&pair, &["{7a7}"]);
    }
    for annotation in [b"MO\0\x07-TX\0\x01aMC\0\x07", b"SM\0\x07NTX\0\x01aEM\0\x07"] {
        shows_in_both(annotation, &["{7a7}"]);
    }
}

/// Ids as decimals, whatever the other fields.
#[test]
fn ids_of_one_to_five_digits() {
    let ids = [9, 10, 99, 100, 65535];
    let codes: Vec<u8> = ids.into_iter().flat_map(|id| code(b"PH", id)).collect();
    shows_in_both(&codes, &["{9}{10}{99}{100}{65535}"]);
    shows_in_both(b"PH\0\x05\0\0\0\x63NN-F", &["{5}"]);
    let pair = [code(b"SC", 65535), code(b"EC", 65535)].concat();
    shows_in_both(&pair, &["{6553565535}"]);
    shows_in_both(b"MO\x27\x10YMC\x27\x10", &["{1000010000}"]);
}

/// A copy shows its own id.
#[test]
fn a_copy() {
    let copy = b"PH\0\x08\0\x07\0\0YY-Y";
    shows(&code(b"PH", 7), &[&code(b"PH", 7), copy.as_slice()].concat(), &[("{7}", "{7}{8}")]);
}

/// A marker that ends with the row, and one that is a cell too long: "goes to the next row whole".
#[test]
fn the_end_of_a_row() {
    for (marker, shown) in [
        (code(b"PH", 7), "{7}"),
        (code(b"PH", 65535), "{65535}"),
        (code(b"IS", 7), "{7"),
        (code(b"IS", 65535), "{65535"),
        (code(b"IE", 7), "7}"),
        (code(b"IE", 65535), "65535}"),
    ] {
        let fits = letters(33 - shown.len());
        let content = [text(&fits), marker.clone()].concat();
        shows_in_both(&content, &[&format!("{fits}{shown}")]);
        for cells in 34 - shown.len()..=33 {
            let before = letters(cells);
            shows_in_both(&[text(&before), marker.clone()].concat(), &[&before, shown]);
        }
    }
}

/// The rest of the row stays blank, though a later character would fit.
#[test]
fn the_rest_of_a_row_stays_blank() {
    let before = letters(31);
    let content = [text(&before), code(b"PH", 7), text("z")].concat();
    shows_in_both(&content, &[&before, "{7}z"]);
    let content = [text(&before), code(b"PH", 7), b"CP\0\0\0\x01".to_vec()].concat();
    shows_in_both(&content, &[&before, "{7}#"]);
    // and though a later marker would fit
    let content = [text(&letters(30)), code(b"PH", 10), code(b"IS", 7)].concat();
    shows_in_both(&content, &[&letters(30), "{10}{7"]);
}

/// The halves of a pair and of an annotation go to the next row one by one.
#[test]
fn halves_at_the_end_of_a_row() {
    let before = letters(30);
    let pair = [text(&before), code(b"SC", 12), text("z"), code(b"EC", 12)].concat();
    shows_in_both(&pair, &[&format!("{before}{{12"), "z12}"]);
    let annotation = [text(&before), b"MO\0\x07-TX\0\x01zMC\0\x07".to_vec()].concat();
    shows_in_both(&annotation, &[&format!("{before}{{7z"), "7}"]);
    let content = [text(&letters(32)), code(b"PO", 7), code(b"PC", 7)].concat();
    shows_in_both(&content, &[&letters(32), "{77}"]);
}

/// Rows of markers alone: four of seven cells, five of six.
#[test]
fn rows_of_markers() {
    let standalone: Vec<u8> = (10_001..=10_005).flat_map(|id| code(b"PH", id)).collect();
    shows_in_both(&standalone, &["{10001}{10002}{10003}{10004}", "{10005}"]);
    let starts: Vec<u8> = (10_001..=10_006).flat_map(|id| code(b"IS", id)).collect();
    shows_in_both(&starts, &["{10001{10002{10003{10004{10005", "{10006"]);
    // eleven of three cells are a full row
    let short: Vec<u8> = (1..=9).flat_map(|id| code(b"PH", id)).collect();
    let starts = [code(b"IS", 10), code(b"IS", 11)].concat();
    let full = "{1}{2}{3}{4}{5}{6}{7}{8}{9}{10{11";
    shows_in_both(&[short, starts, code(b"IE", 5_000)].concat(), &[full, "5000}"]);
}

/// Each column moves its own markers.
#[test]
fn the_columns_wrap_apart() {
    let (before, marker) = (letters(30), code(b"PH", 7));
    let source = [text(&before), marker.clone()].concat();
    let target = [text(&format!("{before}x")), marker].concat();
    let whole = format!("{before}{{7}}");
    shows(&source, &target, &[(&whole, &format!("{before}x")), ("", "{7}")]);
}
