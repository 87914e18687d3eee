//! Against expat, a parser that is not ours. Every text that the writer writes is read by it,
//! with the elements, attributes and texts that the table's records stand for (`events.rs`). Every
//! text that the reader does not refuse by 22 is XML to it, and none that breaks XML is.

use std::io::Write;
use std::process::{Child, Command, Stdio};

use second::desk::hexadecimal;
use second::generate::{deep_unit, valid_unit, xml_job, xml_neighbours};
use second::generate::{LineOperation, Random, ENOUGH};
use second::xml::{unit_of, Reason};

use super::events::events;
use super::*;

const SEED: u64 = 6;
const TABLES: usize = 3000;
const JOBS: u64 = 4000;

/// Python with expat; nothing if it is not on this machine.
fn parser() -> Option<Child> {
    let has_expat = Command::new("python3").args(["-c", "import xml.parsers.expat"]).output();
    if !has_expat.is_ok_and(|output| output.status.success()) {
        return None;
    }
    let script = concat!(env!("CARGO_MANIFEST_DIR"), "/tests/xml/expat.py");
    let mut python = Command::new("python3");
    python.arg(script).stdin(Stdio::piped()).stdout(Stdio::piped());
    Some(python.spawn().expect("python3 ran a moment ago"))
}

/// What expat.py prints for the lines, and whether all agree; nothing without Python.
fn compared(lines: &[String]) -> Option<(String, bool)> {
    let Some(mut python) = parser() else {
        eprintln!("LEFT OUT: no python3 with xml.parsers.expat on this machine");
        return None;
    };
    let mut stdin = python.stdin.take().expect("a piped input");
    let output = std::thread::scope(|scope| {
        // It stops reading at the first difference, so a failed write is none of ours.
        scope.spawn(move || stdin.write_all(lines.concat().as_bytes()));
        python.wait_with_output().expect("the output of expat.py")
    });
    Some((String::from_utf8_lossy(&output.stdout).into_owned(), output.status.success()))
}

fn all_agree(lines: &[String]) {
    if let Some((printed, agree)) = compared(lines) {
        println!("{printed}");
        let all = format!("{} texts agree", lines.len());
        assert!(agree && printed.starts_with(&all), "{printed}");
    }
}

/// A line for expat.py: a table's text, and what a parser must tell of it.
fn written(table: &[u8]) -> String {
    let text = write_xml(table, ENOUGH).expect("a valid table within depth 32");
    format!("{} {}\n", hexadecimal(&text), events(table).join(","))
}

#[test]
fn expat_reads_what_is_written() {
    let random = &mut Random::new(SEED);
    let mut lines = Vec::new();
    for number in 0..TABLES {
        let deep = number % 10 == 0;
        let unit = if deep { deep_unit(random) } else { valid_unit(random) };
        let table = unit.write();
        if write_xml(&table, ENOUGH) != refused(22, 0) {
            lines.push(written(&table));
        }
    }
    assert!(lines.len() > TABLES * 9 / 10);
    all_agree(&lines);
}

/// Another element, attribute or text than the table's is found.
#[test]
fn expat_finds_a_difference() {
    let good = written(b"UNYSG\0\x02-ITX\0\x03a<bMO\0\x05YMC\0\x05UE");
    let differences = [
        ("start/mrk", "start/sm"),
        ("/id=32", ""),
        ("text/613C62", "text/613C"),
        (",end/unit", ""),
    ];
    for (told, other) in differences {
        assert!(good.contains(told), "{told} in {good}");
        let Some((_, agree)) = compared(&[good.replace(told, other)]) else { return };
        assert!(!agree, "{told} is not looked at");
    }
}

/// What XML itself says of a text; nothing where order 1 alone refuses it.
fn by_xml(text: &[u8]) -> Option<&'static str> {
    let Err(fault) = unit_of(text) else { return Some("sound") };
    match fault.reason {
        Reason::Element
        | Reason::UnknownAttribute
        | Reason::MissingAttribute
        | Reason::BadValue
        | Reason::TooDeep
        | Reason::NoSource
        | Reason::NoTextHere
        | Reason::NoComment
        | Reason::BehindUnit => None,
        _ => Some("broken"),
    }
}

#[test]
fn expat_takes_what_is_xml() {
    let generated = (0..JOBS).map(|number| xml_job(SEED, number));
    let texts = generated.filter(|job| job.operation() == LineOperation::ReadXml);
    let mut lines = Vec::new();
    for job in texts.chain(xml_neighbours()) {
        // The empty text has no word of its own in a line.
        if let Some(expected) = by_xml(&job.input).filter(|_| !job.input.is_empty()) {
            lines.push(format!("{} {expected}\n", hexadecimal(&job.input)));
        }
    }
    let broken = lines.iter().filter(|line| line.ends_with("broken\n")).count();
    assert!(broken > 5000 && lines.len() - broken > 2000);
    all_agree(&lines);
}
