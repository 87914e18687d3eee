//! Points 1, 2, 3, 16 and 17 of the readings: what is blamed, and where.

use super::*;

#[test]
fn point_1_a_tag_is_blamed() {
    for broken in
        ["<ph id=1/>", "<ph id/>", "<ph id=\"1\"canCopy=\"no\"/>", "<ph id=\"<\"/>", "< ph/>"]
    {
        blames_in_source("a", broken);
    }
    for element in ["<x/>", "<source>", "<unit id=\"1\"/>", "<note/>", "<PH id=\"1\"/>"] {
        blames_in_source("a", element);
    }
    for attribute in [
        "<ph id=\"1\" x=\"1\"/>",
        "<ph id=\"1\" id=\"1\"/>",
        "<ph/>",
        "<ph id=\"1\" canCopy=\"Yes\"/>",
        "<ph id=\"&#50000000;\"/>",
        "<ph id=\"&one;\"/>",
        "<ph id=\"1\" canOverlap=\"no\"/>",
    ] {
        blames_in_source("a", attribute);
    }
    blames_in_source("<pc id=\"1\">", "</mrk>");
    blames_in_source("<pc id=\"1\">", "</source>");
    blames_in_source("", "</pc>");
    blames("", "</unit>");
}

#[test]
fn point_1_a_reference_is_blamed() {
    let references = [
        "&x;", "&AMP;", "& ", "&;", "&#;", "&#x;", "&#xG;", "&#1a;", "&#0;", "&#xD800;", "&#xFFFE;",
    ];
    for reference in references {
        blames_in_source("a", reference);
    }
    blames_in_source("a", "&#1114112;");
    blames_in_source("a", "&#99999999999999999999999999999999;");
}

#[test]
fn point_1_a_byte_is_blamed() {
    blames("<unit id=\"1\"> ", "x");
    blames("<unit id=\"1\"><segment>", "&amp;");
    blames_in_source("a]", "]]>");
    blames_in_source("<!-- a-b ", "--- -->");
    blames_in_source("a", "<![CDATA[b]]>");
    blames_in_source("a", "<?b?>");
    blames_in_source("a", "<!ELEMENT>");
    for broken in [b"\xC3a".as_slice(), b"\xFF", b"\xC0\x80", b"\xED\xA0\x80", b"\xF4\x90\x80\x80"]
    {
        blames_in_source("a", broken);
        blames_in_source("<!--a", broken);
    }
    for forbidden in ["\u{1}", "\u{B}", "\u{1F}", "\u{FFFE}", "\u{FFFF}"] {
        blames_in_source("a", forbidden);
        blames_in_source("<!--a", forbidden);
    }
    // `]]>` needs its three bytes in a row; `>` alone is text.
    reads("]]<!---->>]]&gt;]&#93;>", b"TX\0\x09]]>]]>]]>");
}

#[test]
fn point_1_the_first_fault_is_blamed() {
    blames_in_source("", "<ph/>&x;");
    blames_in_source("&#65;", "&x;<ph/>");
    blames("", "<unit id=\"0\"><x/>");
}

#[test]
fn point_2_a_cut_text() {
    cut("");
    cut("<!-- c -->");
    for tag in
        ["<", "<u", "<unit ", "<unit id", "<unit id=", "<unit id=\"0", "<unit id=\"0\"", "<unit/"]
    {
        cut(tag);
    }
    // Judged when it is whole, so not here.
    for tag in ["<ph x=\"&x", "<ph id=\"1\" id=\"1\"", "<x", "</x", "<ph id=\"\u{E9}"] {
        cut_in_source(tag);
    }
    cut_in_source(b"<ph id=\"\xC3");
    for inside in [
        "a", "&", "&a", "&am", "&#", "&#0", "&#x", "&#xD800", "<!", "<!-", "<!--a-", "<!--a--",
        "]]",
    ] {
        cut_in_source(inside);
    }
    for character in [b"\xC3".as_slice(), b"\xE2\x82", b"\xEF\xBF", b"\xF4\x8F\xBF"] {
        cut_in_source(character);
        cut_in_source([b"<!--", character].concat());
    }
}

#[test]
fn point_2_what_breaks_the_grammar_is_not_cut() {
    for tag in
        ["<unit id=1", "<unit id \"", "<unit id=\"&1", "<unit id=\"<", "<unit/ ", "</unit i", "<1"]
    {
        blames("", tag);
    }
    blames("", b"<unit id=\"\xED\xA0");
    blames("", b"<un\xC3");
    blames("", "<unit id=\"\u{1}");
    for reference in ["&1", "&#X", "&#xg", "&a ", "&a<"] {
        blames_in_source("a", reference);
    }
    // A reference in a value is judged where it is whole: no byte behind it mends it.
    for tag in ["<ph x=\"&x;", "<ph id=\"1&#0;", "<ph id=\"&#xD800;\""] {
        blames_in_source("a", tag);
    }
    // Where no text may stand, a reference or a character is at fault, cut or not.
    for rest in [b"&".as_slice(), b"&am", b"\xC3", b"a"] {
        blames("<unit id=\"1\">\n", rest);
        blames("", rest);
        blames_in_source("<ph id=\"1\">", rest);
    }
}

#[test]
fn point_3_around_the_unit() {
    let unit = "<unit id=\"1\"><segment><source/></segment></unit>";
    let around = format!(" <!--a-->\r\n{unit}\t<!--b--> \n");
    assert_eq!(read(around.as_bytes()), Ok(b"UNYSG\0\0-IUE".to_vec()));
    for other in ["<?xml version=\"1.0\"?>", "<?a?>", "<!DOCTYPE unit>", "<![CDATA[]]>", "\u{FEFF}"]
    {
        blames("", format!("{other}{unit}"));
        blames(" <!---->", format!("{other}{unit}"));
    }
}

#[test]
fn point_16_names() {
    // Names of the grammar, but unknown: judged when the tag is whole.
    for name in ["_", ":", "a:b", "A-1.b", "xml:lang"] {
        cut_in_source(format!("<{name}"));
        cut_in_source(format!("<ph {name}=\"\""));
        cut_in_source(format!("&{name}"));
        blames_in_source("", format!("<{name}/>"));
        blames_in_source("", format!("<ph id=\"1\" {name}=\"\"/>"));
        blames_in_source("", format!("&{name};"));
    }
    // No names: at fault at once.
    for name in ["1", ".", "-", "\u{E9}", "a\u{E9}", "a\u{B7}"] {
        blames_in_source("", format!("<{name}"));
        blames_in_source("", format!("<ph {name}"));
        blames_in_source("", format!("&{name}"));
    }
}

#[test]
fn point_17_behind_the_unit() {
    for unit in ["<unit id=\"1\"/>", "<unit id=\"1\"> </unit>", "<unit id=\"1\"/> <!---->\n"] {
        for rest in ["a", "&", "<a", "</", "</unit>", "<unit id=\"1\"/>", "<?", "<![", "]]>", "\0"]
        {
            blames(unit, rest);
        }
        blames(unit, b"\xC3");
        for begun in ["<", "<!", "<!-", "<!--", "<!--a--"] {
            cut(format!("{unit}{begun}"));
        }
    }
    blames("<unit id=\"1\"/><!--a", "--b-->");
}
