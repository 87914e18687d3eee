//! Order 5 of document 02, "A review sheet": with outputs of every kind of length, compared with
//! the second implementation.

mod common;

use second::generate::{sheet_edges, sheet_job, Random, SheetJob, ENOUGH};
use xliff_desk::{sheet, Reason, Refusal};

const SEED: u64 = 13;
const JOBS: u64 = 1500;

/// What the output holds before a call.
const NO_RESULT: u8 = 0xA5;

/// Compares one sheet with an output of this length.
fn compare(table: &[u8], room: usize) {
    let context = || format!("sheet {}", table.escape_ascii());
    common::compare(|out| sheet(table, out), second::sheet::sheet(table, room), room, context);
}

/// Lengths around the sheet's, if there is one, and far from it.
fn rooms(job: &SheetJob) -> Vec<usize> {
    let mut rooms = vec![0, job.room, ENOUGH];
    if let Ok(sheet) = second::sheet::sheet(&job.input, ENOUGH) {
        let length = sheet.len();
        rooms.extend([79, 80, length - 1, length, length + 1, 20 * job.input.len()]);
    }
    rooms
}

#[test]
fn sheets_with_outputs_of_any_length() {
    let mut measured = 0;
    for number in 0..JOBS {
        let job = sheet_job(SEED, number);
        let rooms = rooms(&job);
        measured += usize::from(rooms.len() > 3);
        rooms.into_iter().for_each(|room| compare(&job.input, room));
    }
    assert!(measured > 1000, "only {measured} jobs have a sheet");
}

#[test]
fn every_marker_about_a_rows_end() {
    for job in sheet_edges() {
        [job.room - 1, job.room].into_iter().for_each(|room| compare(&job.input, room));
    }
}

/// A sheet in every byte, and behind it the output as it was; with one byte less all of it.
#[test]
fn the_rest_of_the_output_stays() {
    let table = b"UNYSG\0\0-ITX\0\x04\xF0\x9F\x98\x80IG\xFF\xFFCP\0\0\0\x01TG\0\x02TX\0\x01\tUE";
    let expected = [
        "  1       I \u{1F600}",
        &" ".repeat(66),
        "\n  2 65535   #",
        &" ".repeat(33),
        ".",
        &" ".repeat(32),
        "\n",
    ]
    .concat();
    assert_eq!(expected.chars().count(), 160);
    let length = expected.len();
    let mut out = vec![NO_RESULT; length + 100];
    assert_eq!(sheet(table, &mut out), Ok(length));
    assert_eq!(&out[..length], expected.as_bytes());
    assert!(out[length..].iter().all(|&byte| byte == NO_RESULT));
    let mut short = vec![NO_RESULT; length - 1];
    let refusal = Refusal { reason: Reason::TooLarge, place: 0 };
    assert_eq!(sheet(table, &mut short), Err(refusal));
    assert!(short.iter().all(|&byte| byte == NO_RESULT));
    // the table is checked first
    let refusal = Refusal { reason: Reason::BadRecord, place: 3 };
    assert_eq!(sheet(b"UNYUE", &mut short), Err(refusal));
    assert!(short.iter().all(|&byte| byte == NO_RESULT));
}

/// The tables with the longest sheets for their bytes: parts alone, and annotations of long ids.
#[test]
fn twenty_times_the_table_is_enough() {
    let parts = |count: usize| [b"UNY", b"IG\0\0".repeat(count).as_slice(), b"UE"].concat();
    let starts =
        (0..500u16).flat_map(|id| [b"SM", &(65_000 + id).to_be_bytes()[..], b"-"].concat());
    let ends = (0..500u16).flat_map(|id| [b"EM", &(65_000 + id).to_be_bytes()[..]].concat());
    let annotations: Vec<u8> = starts.chain(ends).collect();
    let annotated = [b"UNYIG\0\0", annotations.as_slice(), b"UE"].concat();
    for (table, rows) in [(parts(1), 1), (parts(64), 64), (annotated, 200)] {
        let mut out = vec![NO_RESULT; 20 * table.len()];
        assert_eq!(sheet(&table, &mut out), Ok(80 * rows));
    }
}

/// Bytes that are random are refused as the check refuses them.
#[test]
fn random_bytes_are_refused() {
    let random = &mut Random::of_job(SEED, 0);
    for length in (0..300).chain([8191, 8192, 8193, 20000]) {
        let bytes: Vec<u8> = (0..length).map(|_| random.below(256) as u8).collect();
        assert_eq!(sheet(&bytes, &mut [0; 100]), xliff_desk::check(&bytes));
    }
}
