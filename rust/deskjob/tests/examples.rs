//! The jobs of `examples/`, and README.md, which shows them and what they give.

#[path = "shared/jobs.rs"]
mod jobs;

use deskjob::commands::{self, End, Shown};
use jobs::{job, with_requests, FIRST, SUPPLIERS, SUPPLIERS_REQUESTS};

const README: &str = include_str!("../../../README.md");
const DOOR: &str = include_str!("../examples/door.txt");
const DOOR_XML: &str = include_str!("../examples/door.xml");
const DOOR_REQUESTS: &str = include_str!("../examples/door-requests.txt");
const DOOR_BROKEN_XML: &str = include_str!("../examples/door-broken.xml");
const ACCENT: &str = include_str!("../examples/accent.txt");
const REVIEW: &str = include_str!("../examples/review.txt");

/// README.md shows the text, set in.
fn readme_has(text: &str) {
    let block: Vec<String> =
        text.lines().map(|line| format!("    {line}").trim_end().to_string()).collect();
    assert!(README.contains(&block.join("\n")), "README.md has not:\n{}", block.join("\n"));
}

#[test]
fn the_readme_is_true() {
    for example in [DOOR, ACCENT] {
        readme_has(example);
        let shown = commands::run(&job(example), None).text;
        let (answers, _) = shown.split_once("\nthe table:").unwrap();
        readme_has(answers);
    }
    readme_has(DOOR_XML);
    let blamed = commands::check(&job(DOOR_BROKEN_XML));
    assert_eq!(blamed.end, End::Refused);
    readme_has(&blamed.text);
    let Shown { text, .. } = commands::xml(&job("UN Y\nSG 1 - I\nTX \"A. B\"\nUE\n"));
    readme_has(&text);
    readme_has(REVIEW);
    readme_has(&commands::sheet(&job(REVIEW)).text);
    readme_has(SUPPLIERS);
    readme_has(&commands::view(&job(SUPPLIERS), FIRST).text);
    readme_has(SUPPLIERS_REQUESTS);
    let shown = commands::run(&with_requests(SUPPLIERS, SUPPLIERS_REQUESTS), Some(FIRST)).text;
    let (answers, _) = shown.split_once("\nthe table:").unwrap();
    readme_has(answers);
}

/// Order 2 of document 02, here in the target alone.
#[test]
fn a_letter_keeps_its_accent() {
    let expected = r#"check: OK 54: accepted

split part 1 at source item 6 and target item 5, new id 2
NO 23 0: the source or target cut parts an accent (U+0300 to U+036F) from the text before it

split part 1 at source item 6 and target item 6, new id 2
OK 72: accepted
    UN Y
    SG 1 - T
  - TX "Closed Floor 2"
  + TX "Closed"
    TG 1
  - TX "Ferme\u{301} E\u{301}tage 2"
  + TX "Ferme\u{301}"
  + SG 2 - T
  + TX " Floor 2"
  + TG 2
  + TX " E\u{301}tage 2"
    UE

the table:
  UN Y
  SG 1 - T
  TX "Closed"
  TG 1
  TX "Ferme\u{301}"
  SG 2 - T
  TX " Floor 2"
  TG 2
  TX " E\u{301}tage 2"
  UE
"#;
    assert_eq!(commands::run(&job(ACCENT), None), Shown::refused(expected));
}

/// The unit in XML and the list of requests are the job in notation.
#[test]
fn the_unit_in_xml_is_the_table() {
    let (xml, notation) = (with_requests(DOOR_XML, DOOR_REQUESTS), job(DOOR));
    assert_eq!(xml.unit.table(), notation.unit.table());
    assert_eq!(xml.requests, notation.requests);
    assert_eq!(commands::run(&xml, None), commands::run(&notation, None));
    assert_eq!(commands::show(&xml.unit), commands::show(&notation.unit));
    assert_eq!(commands::check(&xml), Shown::accepted("OK 99: accepted\n"));
    assert!(DOOR.ends_with(DOOR_REQUESTS));
}

/// Where a request is refused no XML is written, but the answers.
#[test]
fn the_table_is_written_as_xml() {
    let mut job = with_requests(DOOR_XML, DOOR_REQUESTS);
    let refused = commands::xml(&job);
    assert_eq!(refused.end, End::Refused);
    assert!(refused.text.contains("\nNO 19 0: ") && !refused.text.contains("<unit"));
    job.requests.remove(0);
    let Shown { text, end } = commands::xml(&job);
    assert_eq!(end, End::Accepted);
    assert!(text.starts_with("<unit id=\"1\"") && text.ends_with("</target></segment></unit>\n"));
    // and read again it is the table after the requests
    let shown = commands::run(&job, None).text;
    let (_, after) = shown.split_once("the table:\n").unwrap();
    assert_eq!(commands::show(&self::job(&text).unit), Shown::accepted(after));
    assert_eq!(commands::xml(&self::job(&text)), Shown::accepted(text));
}

/// Order 5 of document 02. Code 14 does not fit the first row of the source; in the target the last
/// letter does not, behind a blank that is its text's.
#[test]
fn the_review_sheet_is_printed() {
    let expected = concat!(
        "  1     5 T Door {11}: {12} s, door {13}:     Ovi {13}: {14} s, ovi {11}: {12} \n",
        "            {14} s                            s                                \n",
        "  2         .                                                                  \n",
        "  3     6 R {15Warning:15} keep your hands of {15Varoitus:15} älä koske oviin. \n",
        "            f the doors.                                                       \n",
    );
    assert_eq!(commands::sheet(&job(REVIEW)), Shown::accepted(expected));
}

/// Where a request is refused no sheet is printed, but the answers; so too of a refused unit.
#[test]
fn no_sheet_where_anything_is_refused() {
    for refused in [with_requests(REVIEW, "RT 2\n"), job("UN Y\nUE\n")] {
        assert_eq!(commands::sheet(&refused).end, End::Refused);
        assert_eq!(commands::sheet(&refused), commands::xml(&refused));
    }
    let text = commands::sheet(&with_requests(REVIEW, "RT 2\n")).text;
    assert!(text.starts_with("check: OK 249: accepted\n"), "{text}");
    assert!(
        text.ends_with(
            "\nremove the target of part 2\nNO 20 0: no target, no complete pair or \
        annotation of that id, or already so\n"
        ),
        "{text}"
    );
}
