//! Order 1 of document 02: units read from XML and written as XML, with outputs of every kind of
//! length, compared with the second implementation; and the round trip.

mod common;

use second::generate::{
    deep_unit, valid_unit, xml_job, xml_neighbours, LineOperation, Random, XmlJob, ENOUGH,
};
use second::xml::unit_of;
use second::MOST_BYTES;
use xliff_desk::{read_xml, write_xml, Answer, Reason, Refusal};

const SEED: u64 = 11;
const JOBS: u64 = 6000;

/// What the output holds before a call.
const NO_RESULT: u8 = 0xA5;

/// Compares one job with an output of this length.
fn compare(job: &XmlJob, room: usize) {
    let XmlJob { input, .. } = job;
    let operation = job.operation();
    let call = |out: &mut [u8]| match operation {
        LineOperation::ReadXml => read_xml(input, out),
        _ => write_xml(input, out),
    };
    let context = || format!("{} {}", operation.word(), input.escape_ascii());
    common::compare(call, operation.run(input, room), room, context);
}

/// Lengths around the result's (of a table that is read, whether a rule refuses it or not), and
/// far from it.
fn rooms(job: &XmlJob) -> Vec<usize> {
    let needed = match job.operation() {
        LineOperation::ReadXml => unit_of(&job.input).map(|unit| unit.write().len()).ok(),
        operation => operation.run(&job.input, ENOUGH).map(|text| text.len()).ok(),
    };
    let mut rooms = vec![0, job.room, ENOUGH];
    rooms.extend(needed.map_or(vec![], |length| vec![length - 1, length, length + 1]));
    rooms
}

#[test]
fn jobs_with_outputs_of_any_length() {
    let mut measured = 0;
    for number in 0..JOBS {
        let job = xml_job(SEED, number);
        let rooms = rooms(&job);
        measured += usize::from(rooms.len() > 3);
        rooms.into_iter().for_each(|room| compare(&job, room));
    }
    assert!(measured > 2000, "only {measured} jobs have a result of some length");
}

#[test]
fn neighbours_of_a_text() {
    xml_neighbours().iter().for_each(|job| compare(job, job.room));
}

/// Bytes that are random, as a text and as a table.
#[test]
fn random_bytes_are_refused() {
    let random = &mut Random::of_job(SEED, 0);
    for length in (0..300).chain([8191, 8192, 8193, 20000, 100_000]) {
        let bytes: Vec<u8> = (0..length).map(|_| random.below(256) as u8).collect();
        assert_eq!(read_xml(&bytes, &mut [0; 100]).unwrap_err().reason, Reason::OutsideXml);
        assert_eq!(write_xml(&bytes, &mut [0; 100]), xliff_desk::check(&bytes));
    }
}

fn refused(reason: Reason) -> Answer {
    Err(Refusal { reason, place: 0 })
}

/// "With output enough a valid table within depth 32, written and read, must come back in every
/// byte": with outputs just long enough, and 15 with one byte less.
fn comes_back(table: &[u8]) {
    let mut out = vec![NO_RESULT; ENOUGH];
    let length = write_xml(table, &mut out).expect("a valid table within depth 32");
    assert!(length < 16 * table.len());
    let mut text = vec![NO_RESULT; length];
    assert_eq!(write_xml(table, &mut text[1..]), refused(Reason::TooLarge));
    assert_eq!(write_xml(table, &mut text), Ok(length));
    assert_eq!(text, out[..length]);
    let mut back = vec![NO_RESULT; table.len()];
    assert_eq!(read_xml(&text, &mut back[1..]), refused(Reason::TooLarge));
    assert_eq!(read_xml(&text, &mut back), Ok(table.len()));
    assert_eq!(back, table);
}

#[test]
fn tables_come_back() {
    let random = &mut Random::new(SEED);
    for _ in 0..2000 {
        comes_back(&valid_unit(random).write());
    }
}

#[test]
fn deep_tables_come_back_or_are_refused() {
    let random = &mut Random::new(SEED + 1);
    let (mut back, mut deeper) = (0, 0);
    for _ in 0..1000 {
        let table = deep_unit(random).write();
        if write_xml(&table, &mut []) == refused(Reason::OutsideXml) {
            deeper += 1;
        } else {
            comes_back(&table);
            back += 1;
        }
    }
    assert!(back > 300 && deeper > 300, "{back} tables came back, {deeper} are deeper");
}

/// A text may be longer than any table, and its depth without end.
#[test]
fn hostile_texts() {
    let to_source = r#"<unit id="1"><segment><source>"#;
    let deep = [to_source, &r#"<pc id="1">"#.repeat(1_000_000)].concat();
    let place = to_source.len() + 32 * r#"<pc id="1">"#.len();
    let out = &mut [0; MOST_BYTES];
    let refusal = Refusal { reason: Reason::OutsideXml, place };
    assert_eq!(read_xml(deep.as_bytes(), out), Err(refusal));
    let long = [to_source, &"a".repeat(10_000_000), "</source></segment></unit>"].concat();
    assert_eq!(read_xml(long.as_bytes(), out), refused(Reason::TooLarge));
    let comment = format!("<!--{}-->", "a".repeat(10_000_000));
    let commented = [to_source, &comment, "</source></segment></unit>"].concat();
    assert_eq!(read_xml(commented.as_bytes(), out), Ok(11));
    assert_eq!(&out[..11], b"UNYSG\0\0-IUE");
}
