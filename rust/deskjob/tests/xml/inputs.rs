//! Which files hold a unit in XML.

use deskjob::commands;
use deskjob::job::{Job, Unit};

use super::*;

#[test]
fn the_first_byte_that_is_no_blank() {
    for text in ["<", "<unit", " \t\r\n<a>", "\u{FEFF}<unit id=\"1\"/>"] {
        let job = Job::read(text.into()).unwrap();
        assert_eq!(job, Job { unit: Unit::Xml(text.into()), requests: vec![] });
    }
    // no text in UTF-8
    assert!(matches!(Job::read(b"<\xFF".to_vec()).unwrap().unit, Unit::Xml(_)));
    for text in ["", "UN Y", " # <unit/>", "\u{C}<unit/>"] {
        assert!(!matches!(Job::read(text.into()), Ok(Job { unit: Unit::Xml(_), .. })), "{text:?}");
    }
}

/// A table past a limit is refused with no place in the text.
#[test]
fn limits_have_no_place() {
    let text = [TO_SOURCE, &"a".repeat(9000), "</source></segment></unit>"].concat();
    assert_eq!(told(text.as_bytes()), [""; 0]);
    let checked = commands::check(&Job::read(text.into()).unwrap()).text;
    assert!(checked.starts_with("NO 15 0: ") && checked.lines().count() == 1, "{checked}");
}

/// The writer's 22.
#[test]
fn a_deeper_table_is_not_written() {
    let open: String = (1..=33).map(|id| format!("MO {id} -\n")).collect();
    let close: String = (1..=33).rev().map(|id| format!("MC {id}\n")).collect();
    let job = Job::read(format!("UN Y\nSG 0 - I\n{open}{close}UE\n").into()).unwrap();
    let written = commands::xml(&job);
    assert_eq!(written.end, commands::End::Refused);
    assert!(written.text.starts_with("NO 22 0: "), "{}", written.text);
    assert!(written.text.contains("deeper than 32"), "{}", written.text);
}
