//! The generator of XML jobs: texts of valid units are read as these units, and every kind, every
//! answer and every reason of 22 occurs.

use std::collections::BTreeMap;

use second::generate::{
    spelled_unit, valid_unit, xml_job, xml_neighbours, LineJob, LineKind, LineOperation, Random,
    XmlJob, XmlKind, SMALL_TEXT,
};
use second::xml::{unit_of, Reason};

use super::*;

const SEED: u64 = 1;
const JOBS: u64 = 6000;

/// What many texts must hold, with `|` between two of these.
const SPELLINGS: &str =
    "='|=\"| =|= |\t|\r\n|\r<|\n<|<!--|-->|&amp;|&lt;|&gt;|&apos;|&quot;|&#x|&#0\
    |&#x0|&#13;|<source/>|></source>|/>|></ph>|--></ph>|<pc id|></pc>| />|</source |<cp hex=\
    |<segment>|<target>";

#[test]
fn every_spelling_is_read() {
    let random = &mut Random::new(SEED);
    let mut shown: BTreeMap<&str, usize> = BTreeMap::new();
    for _ in 0..2000 {
        let unit = valid_unit(random);
        let text = spelled_unit(random, &unit);
        let lossy = String::from_utf8_lossy(&text);
        assert_eq!(read(&text), Ok(unit.write()), "{lossy}");
        for spelling in SPELLINGS.split('|') {
            *shown.entry(spelling).or_default() += usize::from(lossy.contains(spelling));
        }
    }
    println!("{shown:?}");
    for (spelling, texts) in shown {
        assert!(texts >= 20, "{spelling:?} stands in {texts} texts of 2000");
    }
}

/// Jobs by kind, and answers by operation: 0 for accepted, else the number.
#[derive(Default)]
struct Tally {
    kinds: BTreeMap<XmlKind, usize>,
    read: BTreeMap<u16, usize>,
    written: BTreeMap<u16, usize>,
    reasons: BTreeMap<Reason, usize>,
}

impl Tally {
    fn count(&mut self, job: &XmlJob) {
        *self.kinds.entry(job.kind).or_default() += 1;
        let number = job.outcome().map_or_else(|refusal| refusal.number, |_| 0);
        let answers = match job.operation() {
            LineOperation::ReadXml => &mut self.read,
            _ => &mut self.written,
        };
        *answers.entry(number).or_default() += 1;
        let fault = unit_of(&job.input).err();
        if let Some(fault) = fault.filter(|_| job.operation() == LineOperation::ReadXml) {
            *self.reasons.entry(fault.reason).or_default() += 1;
        }
    }
}

#[test]
fn every_kind_answer_and_reason_occurs() {
    let mut tally = Tally::default();
    (0..JOBS).for_each(|number| tally.count(&xml_job(SEED, number)));
    let Tally { kinds, read, written, reasons } = tally;
    println!("{kinds:?}\nread {read:?}\nwritten {written:?}\n{reasons:?}");
    for (kind, share) in XmlKind::ALL.iter().zip(XmlKind::SHARES) {
        let least = JOBS as usize * share / 100 / 2;
        assert!(kinds.get(kind) >= Some(&least), "too few: {}", kind.name());
    }
    let share = |answers: &BTreeMap<u16, usize>, number: u16| {
        100 * answers.get(&number).copied().unwrap_or(0) / answers.values().sum::<usize>()
    };
    assert!(share(&read, 0) >= 25 && share(&read, 22) >= 40 && share(&read, 15) >= 5);
    assert!(share(&written, 0) >= 35 && share(&written, 22) >= 5 && share(&written, 15) >= 5);
    for number in [2, 3, 5, 6, 7, 8, 9, 10] {
        assert!(read.get(&number) >= Some(&10), "read: {number}");
        assert!(written.get(&number) >= Some(&10), "written: {number}");
    }
    assert!(written.contains_key(&1) && written.contains_key(&4));
    for reason in Reason::ALL {
        assert!(reasons.get(&reason) >= Some(&3), "{reason:?}");
    }
}

/// The small text is read; of its neighbours some are, most are 22 at many places.
#[test]
fn neighbours_of_a_text() {
    assert!(read(SMALL_TEXT.as_bytes()).is_ok());
    let mut tally = Tally::default();
    let jobs = xml_neighbours();
    jobs.iter().for_each(|job| tally.count(job));
    println!("{} texts, read {:?}\n{:?}", jobs.len(), tally.read, tally.reasons);
    assert!(tally.read.get(&0) >= Some(&1000) && tally.read.get(&22) >= Some(&5000));
}

/// A job's line and its answer are of the line protocol.
#[test]
fn jobs_are_lines() {
    for number in 0..300 {
        let job = xml_job(SEED + 1, number);
        assert_eq!(second::lines::answer(&job.line()), Some(job.answer()));
    }
}
