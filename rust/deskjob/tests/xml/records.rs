//! Rules of the table read: the tag of the blamed record is shown.

use notation::records;
use second::generate::{spelled_unit, valid_unit, Random};

use super::*;

#[test]
fn the_tag_of_the_record_is_shown() {
    let blames = |before: &str, tag: &str, behind: &str| {
        let text = [before, tag, behind, "</source></segment></unit>"].concat();
        let (line, column) = match before.rsplit_once('\n') {
            Some((lines, last)) => (lines.matches('\n').count() + 2, last),
            None => (1, before),
        };
        let place = format!("line {line}, column {}: {tag}", column.chars().count() + 1);
        assert_eq!(told(text.as_bytes()), [place], "{text}");
    };
    let source = |content: &str| [TO_SOURCE, content].concat();
    blames(&source("é&amp;\r\n<!--<sc/>-->&#x20AC;\n\"'>"), r#"<sc id="4"/>"#, "b");
    blames(&source(r#"<pc id="1">a"#), r#"<pc id="1"/>"#, "</pc>");
    blames(&source(r#"<mrk id="2">a</mrk><ph id='3'></ph>"#), r#"<cp hex="0041"/>"#, "");
    blames(
        &source("</source><target>a</target></segment><segment><source/>"),
        r#"<target order="4">"#,
        "</target></segment><segment><source>",
    );
}

#[test]
fn a_unit_without_parts() {
    assert_eq!(told(b"<unit id=\"1\"/>"), ["line 1, column 1: <unit id=\"1\"/>"]);
    assert_eq!(told(b"<unit id=\"1\">\n </unit>"), ["line 2, column 2: </unit>"]);
}

/// Each record of a valid unit, as if a rule blamed it, is told by the tag or text that it was
/// read from.
#[test]
fn every_record_is_found() {
    let random = &mut Random::new(5);
    for _ in 0..500 {
        let unit = valid_unit(random);
        let (text, table) = (spelled_unit(random, &unit), unit.write());
        let mut before = 0;
        for line in records(&table) {
            let refusal = Refusal { reason: xliff_desk::Reason::BadRecord, place: line.offset };
            let told = deskjob::xml::blamed(&text, refusal);
            let (place, shown) = told.lines().nth(1).unwrap().split_once(": ").unwrap();
            let names: &[&str] = match &line.text[..2] {
                "UN" => &["<unit"],
                "UE" => &["</unit"],
                "SG" => &["<segment"],
                "IG" => &["<ignorable"],
                "TG" => &["<target"],
                "CP" => &["<cp"],
                "PH" => &["<ph"],
                "PO" => &["<pc"],
                "PC" => &["</pc", "<pc"],
                "SC" | "IS" => &["<sc"],
                "EC" | "IE" => &["<ec"],
                "MO" => &["<mrk"],
                "MC" => &["</mrk", "<mrk"],
                "SM" => &["<sm"],
                "EM" => &["<em"],
                _ => &[""],
            };
            let fits = names.iter().any(|name| shown.starts_with(name));
            assert!(fits, "{} is told as {told}", line.text);
            // The lines rise with the records.
            let line_number = place.trim_start().split([' ', ',']).nth(1).unwrap();
            let line_number: usize = line_number.parse().unwrap();
            assert!(line_number >= before);
            before = line_number;
        }
    }
}
