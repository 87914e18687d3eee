//! Points 4 to 8, 10 and 11 of the readings: attributes and characters.

use super::*;

#[test]
fn point_4_line_ends() {
    reads("a\r\nb\rc\n\r\r\nd", b"TX\0\x09a\nb\nc\n\n\nd");
    reads("&#13;\n&#xD;&#10;\r&#10;", b"TX\0\x06\r\n\r\n\n\n");
    // In a value they become blanks, so it is no id; a tag may hold them between attributes.
    for blank in ["\t", "\n", "\r", "\r\n", "&#10;"] {
        blames_in_source("", format!("<ph id=\"1{blank}\"/>"));
    }
    reads("<ph\r\nid\t=\r\"1\"\n/>", b"PH\0\x01\0\0\0\0YY-Y");
}

#[test]
fn point_5_references_in_values() {
    reads("<ph id='&#49;&#x32;' canCopy='&#110;o'/>", b"PH\0\x0C\0\0\0\0NY-Y");
    for value in ["&quot;1", " 1", "1 ", "&lt;", "1&#9;"] {
        blames_in_source("", format!("<ph id=\"{value}\"/>"));
    }
}

#[test]
fn point_6_ids() {
    reads("<ph id=\"65535\"/>", b"PH\xFF\xFF\0\0\0\0YY-Y");
    let values =
        ["0", "01", "65536", "99999999999999999999", "-1", "+1", "", "1.0", "x", "\u{661}"];
    for value in values {
        blames("", format!("<unit id=\"{value}\">"));
        blames("<unit id=\"1\">", format!("<segment id=\"{value}\">"));
        blames("<unit id=\"1\">", format!("<ignorable id=\"{value}\">"));
        blames("<unit id=\"1\"><segment><source/>", format!("<target order=\"{value}\"/>"));
        blames_in_source("", format!("<em startRef=\"{value}\"/>"));
        for attribute in ["copyOf", "dataRef"] {
            blames_in_source("", format!("<sc id=\"1\" {attribute}=\"{value}\"/>"));
        }
        for attribute in ["dataRefStart", "dataRefEnd"] {
            blames_in_source("", format!("<pc id=\"1\" {attribute}=\"{value}\"/>"));
        }
    }
    blames("", "<unit/>");
    let order = |order: u16| {
        format!("<unit id=\"9\"><segment><source/><target order=\"{order}\"/></segment></unit>")
    };
    assert_eq!(read(order(1).as_bytes()), Ok(b"UNYSG\0\0-ITG\0\x01UE".to_vec()));
    assert_eq!(read(order(2).as_bytes()), refused(5, 9));
}

#[test]
fn point_7_ec() {
    let isolated = "<ec id=\"1\" isolated=\"yes\"/>";
    reads(isolated, b"IE\0\x01\0\0\0\0YYYY");
    reads("<sc id=\"1\" isolated=\"yes\"/>", b"IS\0\x01\0\0\0\0YYYY");
    let pair = b"SC\0\x01\0\0\0\0YYYYEC\0\x01\0\0\0\0YYYY";
    reads("<sc id=\"1\"/><ec startRef=\"1\"/>", pair);
    reads("<sc id=\"1\" isolated=\"no\"/><ec isolated=\"no\" startRef=\"1\"/>", pair);
    for wrong in [
        "<ec/>",
        "<ec id=\"1\"/>",
        "<ec id=\"1\" startRef=\"1\"/>",
        "<ec startRef=\"1\" isolated=\"yes\"/>",
        "<ec id=\"1\" startRef=\"1\" isolated=\"yes\"/>",
        "<ec isolated=\"yes\"/>",
        "<ec startRef=\"1\" isolated=\"maybe\"/>",
        "<sc isolated=\"yes\"/>",
        "<sc startRef=\"1\"/>",
    ] {
        blames_in_source("", wrong);
    }
}

#[test]
fn point_8_pc() {
    reads("<pc id=\"1\"/>", b"PO\0\x01\0\0\0\0YYNYPC\0\x01\0\0\0\0YYNY");
    reads(
        "<pc id=\"1\" dataRefStart=\"2\" dataRefEnd=\"3\" canCopy=\"no\" canDelete=\"no\" \
         canReorder=\"firstNo\" canOverlap=\"yes\"></pc>",
        b"PO\0\x01\0\0\0\x02NNYFPC\0\x01\0\0\0\x03NNYN",
    );
    // Each reference may stand alone; dataRef and isolated are none of pc's.
    reads("<pc id=\"1\" dataRefEnd=\"3\"/>", b"PO\0\x01\0\0\0\0YYNYPC\0\x01\0\0\0\x03YYNY");
    blames_in_source("", "<pc id=\"1\" dataRef=\"3\"/>");
    blames_in_source("", "<pc id=\"1\" isolated=\"no\"/>");
}

#[test]
fn point_10_cp() {
    reads("<cp hex=\"001F\"/><cp hex=\"DFFF\"/>", b"CP\0\0\0\x1FCP\0\0\xDF\xFF");
    assert_eq!(read(&in_source("a<cp hex=\"0041\"/>")), refused(3, 14));
    for value in ["1F", "01F", "0001F", "001f", "0x1F", "001G", "", " 001"] {
        blames_in_source("", format!("<cp hex=\"{value}\"/>"));
    }
}

#[test]
fn point_11_numeric_references() {
    reads("&#0065;&#x0041;&#x1F600;&#x1f600;", "TX\0\x0AAA😀😀".as_bytes());
    reads("&lt;&gt;&amp;&apos;&quot;", b"TX\0\x05<>&'\"");
    blames_in_source("", "&#X41;");
    for outside in ["<unit id=\"1\">", "<unit id=\"1\"><segment>", "<unit id=\"1\"/>", ""] {
        blames(outside, "&#32;");
    }
}
