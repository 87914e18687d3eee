//! Positions, ids and states; characters and rows of the two wide columns.

use super::*;

/// Every cell of a row: "part position 3, id 5, state 1, source 33, target 33, one blank between
/// columns"; padding is blanks, trailing ones too.
#[test]
fn the_cells_of_a_row() {
    let table: [&[u8]; 4] = [b"SG\0\x07-T", &text("up"), b"TG\0\x01", &text("auf")];
    let row = concat!(
        "  1",
        " ",
        "    7",
        " ",
        "T",
        " ",
        "up                               ",
        " ",
        "auf                              ",
        "\n",
    );
    assert_eq!(row.len(), 80);
    assert_eq!(printed(&table), row);
}

/// "Positions and ids are right-aligned decimals, id 0 blank; an ignorable's state is blank."
#[test]
fn positions_ids_and_states() {
    let parts: [&[u8]; 10] = [
        b"SG\0\0-I",
        b"SG\0\x09-T",
        b"SG\0\x0AYR",
        b"SG\0\x64NF",
        b"SG\x03\xE8-I",
        b"SG\x27\x10-I",
        b"SG\xFF\xFF-I",
        b"IG\0\0",
        b"IG\0\x05",
        b"IG\xFF\xFE",
    ];
    let heads = [
        "  1       I",
        "  2     9 T",
        "  3    10 R",
        "  4   100 F",
        "  5  1000 I",
        "  6 10000 I",
        "  7 65535 I",
        "  8",
        "  9     5",
        " 10 65534",
    ];
    assert_eq!(printed(&parts), heads.map(|head| row(head, "", "")).concat());
}

/// As many parts as a unit may have.
#[test]
fn sixty_four_parts() {
    let sheet = printed(&[b"IG\0\0".as_slice(); 64]);
    let rows: Vec<&str> = sheet.split_inclusive('\n').collect();
    assert_eq!(rows.len(), 64);
    assert_eq!([rows[8], rows[9], rows[63]], ["  9", " 10", " 64"].map(|p| row(p, "", "")));
}

/// The target of a part stands beside its source, whatever its order.
#[test]
fn targets_of_any_order() {
    let first = [b"SG\0\x01-I".to_vec(), text("A"), b"TG\0\x02".to_vec(), text("b")].concat();
    let second = [b"SG\0\x02-I".to_vec(), text("B"), b"TG\0\x01".to_vec(), text("a")].concat();
    let expected = [row("  1     1 I", "A", "b"), row("  2     2 I", "B", "a")].concat();
    assert_eq!(printed(&[&first, &second]), expected);
}

/// "A code point takes one cell": of one to four bytes, accents and wide ones too.
#[test]
fn one_cell_for_a_code_point() {
    let mixed = "aé漢😀\u{301}\u{FFFD}\u{10FFFF}#{}.";
    shows_in_both(&text(mixed), &[mixed]);
    for character in ["a", "é", "漢", "😀", "\u{301}"] {
        let full = character.repeat(33);
        shows_in_both(&text(&full), &[&full]);
        shows_in_both(&text(&character.repeat(34)), &[&full, character]);
    }
    // an accent may begin a row
    let letters = letters(33);
    shows_in_both(&text(&format!("{letters}\u{301}")), &[&letters, "\u{301}"]);
}

/// "tab, line feed and return show as a full stop"; no other character does.
#[test]
fn full_stops() {
    shows_in_both(&text("a\tb\nc\rd"), &["a.b.c.d"]);
    shows_in_both(&text("\r\n\n"), &["..."]);
    let others = "\u{7F}\u{85}\u{A0}\u{2028}\u{200B}\u{FEFF} ";
    shows_in_both(&text(others), &[others]);
}

/// "`CP` as `#`".
#[test]
fn characters_that_xml_forbids() {
    shows_in_both(b"CP\0\0\0\0CP\0\0\0\x1FCP\0\0\xD8\0CP\0\0\xFF\xFE", &["####"]);
    shows_in_both(&b"CP\0\0\0\x01".repeat(34), &["#".repeat(33).as_str(), "#"]);
}

/// "A column's row takes all that fits".
#[test]
fn rows_of_33_cells() {
    let row = letters(33);
    for cells in 1..33 {
        shows_in_both(&text(&row[..cells]), &[&row[..cells]]);
    }
    shows_in_both(&text(&row), &[&row]);
    shows_in_both(&text(&format!("{row}A")), &[&row, "A"]);
    shows_in_both(&text(&format!("{row}{row}")), &[&row, &row]);
    shows_in_both(&text(&format!("{row}{row}AB")), &[&row, &row, "AB"]);
}

/// Blanks of a text take cells as others do, and rows.
#[test]
fn blanks_of_a_text() {
    shows_in_both(&text(" a "), &[" a "]);
    shows_in_both(&text(&" ".repeat(33)), &[""]);
    shows_in_both(&text(&" ".repeat(34)), &["", ""]);
    shows_in_both(&text(&format!("{}a", " ".repeat(33))), &["", "a"]);
}

/// "a part has only the rows it needs, at least one"; each column wraps by itself.
#[test]
fn as_many_rows_as_the_longer_column() {
    let (one, two) = (letters(33), letters(33).to_uppercase());
    let (long, longer) = (text(&format!("{one}x")), text(&format!("{two}{two}Y")));
    shows(&long, &text("Y"), &[(&one, "Y"), ("x", "")]);
    shows(&text("x"), &longer, &[("x", &two), ("", &two), ("", "Y")]);
    shows(&long, &longer, &[(&one, &two), ("x", &two), ("", "Y")]);
    shows(&longer, &long, &[(&two, &one), (&two, "x"), ("Y", "")]);
    shows(&long, b"", &[(&one, ""), ("x", "")]);
    shows(b"", &long, &[("", &one), ("", "x")]);
    shows(b"", b"", &[("", "")]);
}

/// No target and an empty target look alike.
#[test]
fn an_empty_target() {
    let without = [b"SG\0\x01-T".to_vec(), text("up")].concat();
    let empty = [without.as_slice(), b"TG\0\x01"].concat();
    let expected = row("  1     1 T", "up", "");
    assert_eq!([printed(&[&without]), printed(&[&empty])], [expected.clone(), expected]);
}

/// "Later rows of a part leave the first three columns blank", an ignorable's too.
#[test]
fn later_rows_of_several_parts() {
    let long = text(&letters(34));
    let segment = [b"SG\0\x07-R".to_vec(), long.clone()].concat();
    let ignorable = [b"IG\0\x08".to_vec(), long].concat();
    let (full, letter) = (letters(33), &letters(34)[33..]);
    let expected = [
        row("  1     7 R", &full, ""),
        row("", letter, ""),
        row("  2     8", &full, ""),
        row("", letter, ""),
        row("  3     9 I", "", ""),
    ]
    .concat();
    assert_eq!(printed(&[&segment, &ignorable, b"SG\0\x09-I"]), expected);
}
