//! Points 9, 12 and 13 of the readings: elements, depth, limits and the sequence of answers.

use super::*;

#[test]
fn point_9_empty_elements() {
    reads("<ph id=\"1\"></ph>", b"PH\0\x01\0\0\0\0YY-Y");
    reads("<cp hex=\"0001\"><!--a--><!--b--></cp >", b"CP\0\0\0\x01");
    blames_in_source("<ph id=\"1\">", " </ph>");
    blames_in_source("<ph id=\"1\">", "<ph id=\"2\"/></ph>");
    blames_in_source("<ph id=\"1\">", "</pc>");
    let short = "<unit id=\"1\"><segment><source/><target/></segment></unit>";
    let long = "<unit id=\"1\"><segment><source></source><target></target></segment></unit>";
    let table = b"UNYSG\0\0-ITG\0\x01UE".to_vec();
    assert_eq!(read(short.as_bytes()), Ok(table.clone()));
    assert_eq!(read(long.as_bytes()), Ok(table));
    // A part has a source.
    blames("<unit id=\"1\">", "<segment/>");
    blames("<unit id=\"1\"><segment>", "</segment>");
    blames("<unit id=\"1\"><ignorable> <!---->", "<target/>");
    blames("<unit id=\"1\"><ignorable><source/>", "<source/>");
    blames("<unit id=\"1\"><ignorable><source/><target/>", "<target/>");
}

/// So many pc and mrk in turn around a content.
fn nested(depth: usize, inside: &str) -> String {
    let name = |level: usize| if level.is_multiple_of(2) { "pc" } else { "mrk" };
    let open = |level: usize| format!("<{} id=\"{}\">", name(level), level + 1);
    let opens: String = (0..depth).map(open).collect();
    let ends: String = (0..depth).rev().map(|level| format!("</{}>", name(level))).collect();
    format!("{opens}{inside}{ends}")
}

#[test]
fn point_12_depth() {
    let of_part = |content: &str| format!("<segment><source>{content}</source></segment>");
    let deepest = of_part(&nested(32, "a"));
    assert!(read(format!("<unit id=\"1\">{deepest}</unit>").as_bytes()).is_ok());
    // Starts and ends do not count.
    assert!(read(&in_source(&nested(32, "<sm id=\"99\"/><em startRef=\"99\"/>"))).is_ok());
    let opens = nested(32, "|").split('|').next().unwrap_or_default().to_string();
    for deeper in ["<mrk id=\"99\">", "<mrk id=\"99\"/>", "<pc id=\"99\"/>"] {
        blames_in_source(&opens, deeper);
    }
    // Whole only with its last byte.
    cut_in_source(format!("{opens}<pc id=\"99\"/"));
    // A content begins at depth 0, and so does what stands behind an element.
    let twice = in_source(&format!("{}<mrk id=\"99\"/>", nested(32, "")));
    assert!(read(&twice).is_ok());
}

#[test]
fn point_12_hostile_depth() {
    let text = format!("{TO_SOURCE}{}", "<pc id=\"1\">".repeat(1_000_000));
    let place = TO_SOURCE.len() + 32 * "<pc id=\"1\">".len();
    assert_eq!(read(text.as_bytes()), refused(22, place));
}

/// Long texts of every sort: each byte is looked at a few times, whatever it is.
#[test]
fn point_12_hostile_length() {
    const LONG: usize = 200_000;
    for piece in ["]", "&#65;", "<!---->", "<ph id=\"1\"/>", "\r", "é", "<pc id=\"1\"/>"] {
        let text = in_source(&piece.repeat(LONG));
        assert_eq!(read(&text).is_ok(), piece == "<!---->", "{piece}");
        cut(&text[..text.len() - 1]);
    }
    let attributes: String = (0..LONG / 10).map(|number| format!(" a{number}=''")).collect();
    blames("", format!("<unit id='1'{attributes}>"));
    blames("", format!("<unit id='{}'>", "1".repeat(LONG)));
    blames("", format!("<unit id='1' id{}='1'>", " ".repeat(LONG)));
    blames("", format!("<{}/>", "a".repeat(LONG)));
    blames_in_source(&format!("&#{}65;", "0".repeat(LONG)), "&x;");
    cut_in_source(format!("<!--{}", "- ".repeat(LONG)));
}

#[test]
fn point_13_answers() {
    // 22 goes before 15, and 15 before the check.
    let text = in_source("<sc id=\"1\"/>");
    assert_eq!(read_xml(&text[..20], 0), refused(22, 20));
    assert_eq!(read_xml(&text, 22), refused(15, 0));
    assert_eq!(read_xml(&text, 23), refused(7, 9));
    assert_eq!(read_xml(b"<unit id=\"1\"/>", 4), refused(15, 0));
    assert_eq!(read_xml(b"<unit id=\"1\"/>", 5), refused(2, 3));
    assert_eq!(read(b"<unit id=\"1\"> </unit>"), refused(2, 3));
}

#[test]
fn point_13_limits_of_the_table_read() {
    // 15 bytes are not of the text.
    let long = |length: usize| in_source(&"a".repeat(length));
    assert_eq!(read_xml(&long(8177), 10_000_000).map(|table| table.len()), Ok(8192));
    assert_eq!(read_xml(&long(8178), 10_000_000), refused(15, 0));
    assert_eq!(read_xml(&long(65_536 + 100), 10_000_000), refused(15, 0));
    // Three records are not of the content.
    let records = |count: usize| in_source(&"<cp hex=\"0001\"/>".repeat(count));
    assert!(read(&records(1021)).is_ok());
    assert_eq!(read(&records(1022)), refused(15, 0));
    let parts = |count: usize| {
        format!("<unit id=\"1\">{}</unit>", "<ignorable><source/></ignorable>".repeat(count))
    };
    assert!(read(parts(64).as_bytes()).is_ok());
    assert_eq!(read(parts(65).as_bytes()), refused(15, 0));
    // "the text has no limit of its own".
    let comment = format!("<!--{}-->", " ".repeat(1_000_000));
    assert!(read(&in_source(&comment)).is_ok());
    let targets = "<ignorable><source/><target/></ignorable>".repeat(70_000);
    assert_eq!(read(format!("<unit id=\"1\">{targets}</unit>").as_bytes()), refused(15, 0));
}
