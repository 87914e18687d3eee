//! What a refusal by 22 tells: line and column, what stands there, what is wrong with it.

use super::*;

/// The text of both pieces is told where the second begins, as this, in these words.
fn told_as(before: &str, rest: impl AsRef<[u8]>, shown: &str, wrong: &str) {
    let text = [before.as_bytes(), rest.as_ref()].concat();
    let lines: Vec<&str> = before.split('\n').collect();
    let (line, column) = (lines.len(), lines[lines.len() - 1].chars().count() + 1);
    let expected = [format!("line {line}, column {column}: {shown}"), wrong.to_string()];
    assert_eq!(told(&text), expected, "{}", text.escape_ascii());
}

/// In a source, where the tag stands whole.
fn tag_told_as(before: &str, tag: &str, wrong: &str) {
    told_as(&format!("{TO_SOURCE}{before}"), format!("{tag}a</source>"), tag, wrong);
}

/// The text is told at its end.
fn end_told_as(text: impl AsRef<[u8]>, wrong: &str) {
    let [line, told] = &told(text.as_ref())[..] else { panic!("no two lines") };
    assert!(line.ends_with(": (the text ends here)"), "{line}");
    assert_eq!(told, wrong);
}

#[test]
fn lines_and_columns() {
    let source = |content: &str| format!("<unit id=\"1\">\n<segment>\n\n<source>{content}");
    told_as(&source("äöü€😀"), "&x; ", "&x;", "&x; is none of &amp; &lt; &gt; &apos; &quot;");
    told_as(&source("a\n"), "&;", "&;", "& begins no reference (a plain & is written &amp;)");
    // a line ends by CR LF, CR or LF
    let place = told(b"<!--\r\n\r\n\r\n-->\r<!--\xC3\xA9\r-->\r   x").remove(0);
    assert_eq!(place, "line 7, column 4: x");
}

#[test]
fn tags_that_are_none_of_xml() {
    let none = |tag: &str, wrong: &str| tag_told_as("é", tag, &format!("no tag of XML: {wrong}"));
    none("< ph>", "no name stands behind <");
    none("</>", "no name stands behind </");
    none("</source x>", "no > stands behind source");
    none("<ph id>", "no = stands behind id");
    none("<ph id=1/>", "the value of id stands in no quotes");
    none("<ph id='1'/ >", "behind the value of id neither an attribute nor > nor /> stands");
    none(
        "<ph id='1'canCopy='no'/>",
        "behind the value of id neither an attribute nor > nor /> stands",
    );
    none("<ph,id='1'/>", "behind ph neither an attribute nor > nor /> stands");
    none("<ph 1='1'/>", "behind ph neither an attribute nor > nor /> stands");
    tag_told_as("", "<ph id='<'/>", "in the value of id: < is written &lt;");
    tag_told_as(
        "",
        "<ph id='&x;'/>",
        "in the value of id: &x; is none of &amp; &lt; &gt; &apos; &quot;",
    );
    tag_told_as("", "<ph id='&#0;'/>", "in the value of id: it names no character that XML allows");
    let forbidden = "in the value of id: XML forbids U+0001";
    told_as("", "<unit id='\u{1}'/>", "<unit id='\\u{1}'/>", forbidden);
    told_as(
        "",
        b"<unit id='\xED\xA0'/>",
        "<unit id='\u{FFFD}\u{FFFD}'/>",
        "in the value of id: ED is no UTF-8",
    );
}

#[test]
fn attributes() {
    tag_told_as("", "<ph id=\"1\" id=\"2\"/>", "id stands twice");
    tag_told_as(
        "",
        "<ph id=\"1\" equiv=\"x\"/>",
        "equiv is no attribute of ph that the desk reads",
    );
    tag_told_as("", "<ph/>", "ph has no id, which it must have");
    tag_told_as("", "<cp/>", "cp has no hex, which it must have");
    let number = "a number from 1 to 65535 without leading zero";
    for value in ["", "0", "01", "65536", " 1", "1a", "+1", "-1"] {
        let wrong = format!("the value of id is {value:?}, not {number}");
        tag_told_as("", &format!("<ph id=\"{value}\"/>"), &wrong);
    }
    tag_told_as(
        "",
        "<ph id=\"1\" canCopy=\"Yes\"/>",
        "the value of canCopy is \"Yes\", not yes or no",
    );
    let reorder = "the value of canReorder is \"&\", not yes, firstNo or no";
    tag_told_as("", "<ph id=\"1\" canReorder=\"&#38;\"/>", reorder);
    tag_told_as(
        "",
        "<cp hex=\"1a\"/>",
        "the value of hex is \"1a\", not four upper hexadecimal digits",
    );
    tag_told_as("", "<sc/>", "sc has no id, which it must have");
    tag_told_as(
        "",
        "<sc id=\"1\" startRef=\"1\"/>",
        "startRef is no attribute of sc that the desk reads",
    );
    let isolated = "an isolated ec has no id, which it must have";
    tag_told_as("", "<ec startRef=\"1\" isolated=\"yes\"/>", isolated);
    tag_told_as(
        "",
        "<ec id=\"1\"/>",
        "an ec that is not isolated has no startRef, which it must have",
    );
    let both = "an ec that is not isolated has id, which it must not have";
    tag_told_as("", "<ec id=\"1\" startRef=\"1\"/>", both);
    told_as("", "<unit>", "<unit>", "unit has no id, which it must have");
    let states = "the value of state is \"new\", not initial, translated, reviewed or final";
    told_as("<unit id='1'>", "<segment state='new'>", "<segment state='new'>", states);
}

#[test]
fn where_a_tag_may_stand() {
    tag_told_as("", "<note>", "note is no element that the desk reads");
    let inline = "only <cp>, <ph>, <pc>, <sc>, <ec>, <mrk>, <sm>, <em> or";
    let misplaced = format!("source may not stand here, {inline} </source>");
    tag_told_as("a", "<source>", &misplaced);
    let misplaced = format!("unit may not stand here, {inline} </pc>");
    tag_told_as("<pc id='1'>", "<unit id='1'/>", &misplaced);
    tag_told_as("<ph id='1'>", "<ph id='2'/>", "ph may not stand here, only </ph>");
    let here = |before: &str, tag: &str, wrong: &str| told_as(before, tag, tag, wrong);
    here("", "<segment>", "segment may not stand here, only <unit>");
    here("", "</unit>", "it closes unit, and nothing is open");
    let part = "source may not stand here, only <segment>, <ignorable> or </unit>";
    here("<unit id='1'>", "<source>", part);
    here("<unit id='1'><segment>", "<target>", "target may not stand here, only <source>");
    let twice = "source may not stand here, only <target> or </segment>";
    here("<unit id='1'><segment><source/>", "<source/>", twice);
    let target = "<unit id='1'><segment><source/><target/>";
    here(target, "<target/>", "target may not stand here, only </segment>");
    here("<unit id='1'>", "<segment/>", "segment has no source, which it must have");
    here("<unit id='1'><ignorable>", "</ignorable>", "ignorable has no source, which it must have");
    here("<unit id='1'><ignorable>", "</unit>", "it closes unit, and ignorable is open");
    tag_told_as("<pc id='1'>", "</mrk>", "it closes mrk, and pc is open");
    let deep: String = (1..=32).map(|id| format!("<mrk id='{id}'>")).collect();
    let deeper = "pc and mrk stand in each other to depth 32, not deeper";
    tag_told_as(&deep, "<pc id=\"99\"/>", deeper);
}

#[test]
fn references() {
    let source = |rest: &str, shown: &str, wrong: &str| told_as(TO_SOURCE, rest, shown, wrong);
    source("& b", "&", "& begins no reference (a plain & is written &amp;)");
    source("&amp b", "&amp", "no ; stands behind &amp (a plain & is written &amp;)");
    source("&nbsp;", "&nbsp;", "&nbsp; is none of &amp; &lt; &gt; &apos; &quot;");
    source("&#X41;", "&#X41;", "a numeric reference is written as &#65; or &#x41;");
    source("&#4g;", "&#4g;", "a numeric reference is written as &#65; or &#x41;");
    for reference in ["&#0;", "&#xD800;", "&#xFFFF;", "&#99999999999999;"] {
        source(reference, reference, "it names no character that XML allows");
    }
}

#[test]
fn bytes() {
    let around = "before the unit only blanks and comments may stand";
    told_as(" ", "a<unit/>", "a", around);
    told_as("", "\u{FEFF}<unit id='1'/>", "\\u{feff}", "a byte order mark is not read");
    let outside = "no text may stand here, only in source and target";
    told_as("<unit id='1'>\n ", "&amp; b <segment>", "&amp; b", outside);
    let empty = "ph is an empty element: only comments may stand in it";
    told_as(&format!("{TO_SOURCE}<ph id='1'><!---->"), " x</ph>", "x", empty);
    let behind = "behind the unit only blanks and comments may stand";
    told_as("<unit id='1'/>\n", "SP 1 2 0 2\n", "SP 1 2 0 2", behind);
    told_as("<unit id='1'></unit >\n", "<unit id='1'/>", "<unit id='1'/>", behind);
    told_as(TO_SOURCE, "]]>", "]]>", "]]> may not stand in a text, it is written ]]&gt;");
    let hyphens = "-- may not stand in a comment, only at its end as -->";
    told_as("<!-- a ", "-- b -->", "--", hyphens);
    told_as(TO_SOURCE, "\u{B}a", "\\u{b}a", "XML forbids U+000B");
    told_as(TO_SOURCE, b"\xC3(</source>", "\u{FFFD}(", "C3 is no UTF-8");
    told_as("<!--", b"\xFF-->", "\u{FFFD}-->", "FF is no UTF-8");
}

#[test]
fn declarations() {
    told_as(
        "",
        "<?xml version='1.0'?>\n<unit/>",
        "<?xml version='1.0'?>",
        "an XML declaration is not read",
    );
    told_as("", "<?a?><unit/>", "<?a?>", "a processing instruction is not read");
    told_as(
        " ",
        "<!DOCTYPE unit><unit/>",
        "<!DOCTYPE unit>",
        "a document type declaration is not read",
    );
    told_as(TO_SOURCE, "<![CDATA[a]]>", "<![CDATA[a]]>", "a CDATA section is not read");
    told_as(TO_SOURCE, "<!a>", "<!a>", "<! begins no comment");
}

#[test]
fn cut_texts() {
    end_told_as("<!-- a -->\n", "the text ends before a unit begins");
    end_told_as(
        TO_SOURCE,
        "the text ends before the unit is closed (open are unit, segment, source)",
    );
    end_told_as("<unit id='1'>", "the text ends before the unit is closed (open are unit)");
    end_told_as("<", "the text ends inside a tag: <");
    end_told_as("<unit id='1", "the text ends inside a tag: <unit id='1");
    for comment in ["<!", "<!-", "<!-- a", "<unit id='1'/><!--a--"] {
        end_told_as(comment, "the text ends inside a comment");
    }
    end_told_as(format!("{TO_SOURCE}a&amp;&am"), "the text ends inside a reference: &am");
    end_told_as(
        [TO_SOURCE.as_bytes(), b"a\xE2\x82"].concat(),
        "the text ends inside a UTF-8 character",
    );
}

/// A tag is shown on one line, and a long one cut.
#[test]
fn tags_are_shown_on_one_line() {
    told_as(
        "",
        "<unit\r\n  id='0'\n/>",
        "<unit id='0' />",
        "the value of id is \"0\", not a number from 1 to 65535 without leading zero",
    );
    let long = format!("<{}>", "a".repeat(100));
    let shown = format!("<{}..", "a".repeat(71));
    assert_eq!(told(long.as_bytes())[0], format!("line 1, column 1: {shown}"));
}
