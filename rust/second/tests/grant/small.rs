//! Every role with each call and every set of positions of a small unit, judged by a table that is
//! written from the order's words. The same jobs go through the proved desk (`differential lines`).

use std::collections::{BTreeMap, BTreeSet};

use second::generate::{small_grants, GrantJob, LineJob};
use second::lines::in_digits;

/// Who may ask, beside an engineer.
#[derive(Clone, Copy, PartialEq)]
enum Who {
    Nobody,
    Reviewer,
    TranslatorAndReviewer,
}

use Who::{Nobody, Reviewer, TranslatorAndReviewer};

/// The three parts with their targets and without, as the view shows them.
const PARTS: [(&[u8], &[u8]); 3] = [
    (
        b"SG\0\x01-RSC\0\x0B\0\0\0\0YYYYTX\0\x01aPO\0\x0C\0\0\0\0YYYYTX\0\x01bPC\0\x0C\0\0\0\0YYYY\
          TG\0\x02TX\0\x01AEC\0\x0B\0\0\0\0YYYY",
        b"SG\0\x01-ISC\0\x0B\0\0\0\0YYYYTX\0\x01aPO\0\x0C\0\0\0\0YYYYTX\0\x01bPC\0\x0C\0\0\0\0YYYY",
    ),
    (
        b"IG\0\x02MO\0\x0D-TX\0\x01cMC\0\x0DTG\0\x03SM\0\x0D-TX\0\x01CEM\0\x0D",
        b"IG\0\x02MO\0\x0D-TX\0\x01cMC\0\x0D",
    ),
    (
        b"SG\0\x03-FTX\0\x01dEC\0\x0B\0\0\0\0YYYY\
          TG\0\x01SC\0\x0B\0\0\0\0YYYYPO\0\x0E\0\0\0\0YYYYTX\0\x01DPC\0\x0E\0\0\0\0YYYY",
        b"SG\0\x03-ITX\0\x01dEC\0\x0B\0\0\0\0YYYY",
    ),
];

/// A request, who may ask it, the positions that must be granted, and its own answer.
type Row = (&'static str, Who, &'static [u8], &'static str);

/// Splits and joins are an engineer's. 257 is no position.
const SPLITS_AND_JOINS: [Row; 12] = [
    ("SP 0 1 0 9", Nobody, &[], "NO 11 0"),
    ("SP 1 1 0 9", Nobody, &[], "OK"),
    ("SP 2 1 0 9", Nobody, &[], "OK"),
    ("SP 3 1 0 9", Nobody, &[], "OK"),
    ("SP 4 1 0 9", Nobody, &[], "NO 11 0"),
    ("SP 257 1 0 9", Nobody, &[], "NO 11 0"),
    ("JN 0", Nobody, &[], "NO 11 0"),
    ("JN 1", Nobody, &[], "OK"),
    ("JN 2", Nobody, &[], "NO 16 0"),
    ("JN 3", Nobody, &[], "NO 11 0"),
    ("JN 4", Nobody, &[], "NO 11 0"),
    ("JN 257", Nobody, &[], "NO 11 0"),
];

/// Without the target of part 1 or 3, pair 11 has one half in the targets: 7.
const TARGETS: [Row; 13] = [
    ("ST 0 T", TranslatorAndReviewer, &[0], "NO 11 0"),
    ("ST 1 T", TranslatorAndReviewer, &[1], "OK"),
    ("ST 2 -", TranslatorAndReviewer, &[2], "OK"),
    ("ST 3 I", TranslatorAndReviewer, &[3], "OK"),
    ("ST 4 T", TranslatorAndReviewer, &[4], "NO 11 0"),
    ("ST 257 T", Nobody, &[], "NO 11 0"),
    ("ST 1 X", TranslatorAndReviewer, &[1], "NO 2 0"),
    ("RT 0", TranslatorAndReviewer, &[0], "NO 11 0"),
    ("RT 1", TranslatorAndReviewer, &[1], "NO 7 0"),
    ("RT 2", TranslatorAndReviewer, &[2], "OK"),
    ("RT 3", TranslatorAndReviewer, &[3], "NO 7 0"),
    ("RT 4", TranslatorAndReviewer, &[4], "NO 11 0"),
    ("RT 257", Nobody, &[], "NO 11 0"),
];

/// Where a side has no pair or annotation of the id, and where its letter is wrong, only an
/// engineer's call comes to its own number.
const REWRITES: [Row; 24] = [
    ("RW S 11 P", Reviewer, &[1, 3], "NO 21 0"),
    ("RW S 11 S", Reviewer, &[1, 3], "NO 20 0"),
    ("RW S 12 P", Reviewer, &[1], "NO 20 0"),
    ("RW S 12 S", Reviewer, &[1], "OK"),
    ("RW S 13 P", Reviewer, &[2], "NO 20 0"),
    ("RW S 13 S", Reviewer, &[2], "OK"),
    ("RW S 14 P", Nobody, &[], "NO 20 0"),
    ("RW S 14 S", Nobody, &[], "NO 20 0"),
    ("RW S 1 P", Nobody, &[], "NO 20 0"),
    ("RW S 1 S", Nobody, &[], "NO 20 0"),
    ("RW T 11 P", Reviewer, &[1, 3], "NO 21 0"),
    ("RW T 11 S", Reviewer, &[1, 3], "NO 20 0"),
    ("RW T 12 P", Nobody, &[], "NO 20 0"),
    ("RW T 12 S", Nobody, &[], "NO 20 0"),
    ("RW T 13 P", Reviewer, &[2], "OK"),
    ("RW T 13 S", Reviewer, &[2], "NO 20 0"),
    ("RW T 14 P", Reviewer, &[3], "NO 20 0"),
    ("RW T 14 S", Reviewer, &[3], "OK"),
    ("RW T 1 P", Nobody, &[], "NO 20 0"),
    ("RW T 1 S", Nobody, &[], "NO 20 0"),
    ("RW X 12 S", Nobody, &[], "NO 2 0"),
    ("RW s 12 S", Nobody, &[], "NO 2 0"),
    ("RW S 12 X", Reviewer, &[1], "NO 2 0"),
    ("RW S 11 p", Reviewer, &[1, 3], "NO 2 0"),
];

/// What must be answered; of an accepted call only that it is, as its bytes are compared with those
/// of a call without grant.
fn expected(job: &GrantJob, (_, who, needed, own): &Row) -> &'static str {
    let may = match job.role {
        b'E' => return own,
        b'T' => *who == TranslatorAndReviewer,
        b'R' => *who != Nobody,
        _ => false,
    };
    if may && needed.iter().all(|position| job.positions.contains(position)) {
        own
    } else {
        "NO 24 0"
    }
}

/// The view, put together from the parts above; with one byte less of output 15.
fn expected_view(job: &GrantJob) -> String {
    let shown = |position: u8| match job.role {
        b'E' => true,
        b'T' | b'R' => job.positions.contains(&position),
        _ => false,
    };
    let parts = PARTS.iter().zip(1..).map(|((whole, without), position)| {
        let part = if shown(position) { whole } else { without };
        part.to_vec()
    });
    let view = [b"UNY".to_vec(), parts.collect::<Vec<_>>().concat(), b"UE".to_vec()].concat();
    if job.room < view.len() {
        return "NO 15 0".into();
    }
    let digits: String = view.iter().map(|byte| format!("{byte:02X}")).collect();
    format!("OK {} {digits}", view.len())
}

fn without_grant(job: &GrantJob, request: &[u8]) -> Option<String> {
    let (room, table, request) = (job.room, in_digits(&job.table), in_digits(request));
    second::lines::answer(&format!("call {room} {table} {request}"))
}

#[test]
fn every_grant_of_a_small_unit() {
    let table = [b"UNY", PARTS.map(|(whole, _)| whole).concat().as_slice(), b"UE"].concat();
    let rows = [SPLITS_AND_JOINS.as_slice(), &TARGETS, &REWRITES].concat();
    let rows: BTreeMap<&str, Row> = rows.into_iter().map(|row| (row.0, row)).collect();
    let (mut grants, mut calls, mut granted) = (BTreeSet::new(), BTreeMap::new(), 0);
    for job in small_grants() {
        assert_eq!(job.table, table);
        let grant: BTreeSet<u8> = job.positions.iter().copied().collect();
        grants.insert((job.role, grant));
        let Some(request) = &job.request else {
            assert_eq!(job.answer(), expected_view(&job), "{job:?}");
            continue;
        };
        let name = notation::requests(request)[0].text.clone();
        let row = rows.get(name.as_str()).unwrap_or_else(|| panic!("{name} is not expected"));
        let (answer, expected) = (job.answer(), expected(&job, row));
        let same = if expected == "OK" { answer.starts_with("OK ") } else { answer == expected };
        assert!(same, "{name} is answered {answer}, not {expected}: {job:?}");
        if expected != "NO 24 0" {
            assert_eq!(Some(answer), without_grant(&job, request), "{name}");
            granted += 1;
        }
        *calls.entry(name).or_insert(0) += 1;
    }
    println!("{} grants, {} requests, {granted} calls granted", grants.len(), calls.len());
    // nine roles with every set of 0 to 4
    assert_eq!(grants.len(), 9 * 32);
    assert_eq!(calls.len(), rows.len());
    assert!(calls.values().all(|count| *count == 9 * 32));
}
