//! Outputs of every kind of length: the answer and each byte of the lent output, compared with
//! the second implementation. The desk program lends 8,192 bytes only.

mod common;

use common::told;
use second::desk::read_request;
use second::generate::{job, Random};
use second::MOST_BYTES;
use xliff_desk::Answer;

const SEED: u64 = 7;
const JOBS: u64 = 4000;

fn number(bytes: &[u8], at: usize) -> u16 {
    u16::from_be_bytes([bytes[at], bytes[at + 1]])
}

/// The library's answer to a request.
fn ask(table: &[u8], request: &[u8], out: &mut [u8]) -> Answer {
    let first = number(request, 2);
    match &request[..2] {
        b"SP" => {
            let [source, target, id] = [4, 6, 8].map(|at| number(request, at));
            xliff_desk::split(table, first, source, target, id, out)
        }
        b"JN" => xliff_desk::join(table, first, out),
        b"ST" => xliff_desk::set_target(table, first, request[4], &request[7..], out),
        b"RT" => xliff_desk::remove_target(table, first, out),
        b"RW" => xliff_desk::rewrite(table, request[2], number(request, 3), request[5], out),
        other => panic!("no operation has the mark {other:?}"),
    }
}

/// Compares one call with an output of this length.
fn compare(table: &[u8], request: &[u8], room: usize) {
    let (read, _) = read_request(request, 0).expect("a readable request");
    let context = || format!("table {table:02X?}, request {request:02X?}");
    common::compare(|out| ask(table, request, out), read.run(table, room), room, context);
}

/// Lengths around the result's, and far from it.
fn rooms(table: &[u8], request: &[u8]) -> Vec<usize> {
    let (read, _) = read_request(request, 0).expect("a readable request");
    let mut rooms = vec![0, 1, table.len(), MOST_BYTES, MOST_BYTES + 9];
    if let Ok(result) = read.run(table, MOST_BYTES) {
        let length = result.len();
        rooms.extend([length.saturating_sub(7), length - 1, length, length + 1, length + 300]);
    }
    rooms
}

#[test]
fn calls_with_outputs_of_any_length() {
    let mut accepted = 0;
    for number in 0..JOBS {
        let (_, job) = job(SEED, number);
        let end = second::desk::table_length(&job);
        let (table, requests) = job.split_at(end);
        let Some((_, size)) = read_request(requests, 0) else { continue };
        let request = &requests[..size];
        let rooms = rooms(table, request);
        accepted += usize::from(rooms.len() > 5);
        rooms.into_iter().for_each(|room| compare(table, request, room));
    }
    assert!(accepted > 500, "only {accepted} calls are accepted with room enough");
}

#[test]
fn checks_agree() {
    for number in 0..2 * JOBS {
        let (_, job) = job(SEED + 1, number);
        let table = &job[..second::desk::table_length(&job)];
        let expected = second::rules::check(table).map(|_| table.len()).map_err(told);
        assert_eq!(xliff_desk::check(table), expected, "{table:02X?}");
    }
}

#[test]
fn jobs_agree() {
    for number in 0..JOBS / 4 {
        let (_, job) = job(SEED + 2, number);
        let expected = second::desk::desk(&job);
        assert!(xliff_desk::job(&job) == expected, "job {number} of seed {}", SEED + 2);
    }
}

/// A table whose bytes are random, lent to each operation: nothing faults, all is refused by
/// the check's number.
#[test]
fn random_bytes_are_refused_by_the_check() {
    let random = &mut Random::of_job(SEED, 0);
    for length in (0..300).chain([8191, 8192, 8193, 20000]) {
        let table: Vec<u8> = (0..length).map(|_| random.below(256) as u8).collect();
        let refused = xliff_desk::check(&table);
        assert!(refused.is_err());
        let requests: [&[u8]; 5] =
            [b"SP\0\x01\0\x01\0\0\0\0", b"JN\0\x01", b"ST\0\x01T\0\0", b"RT\0\x01", b"RWS\0\x01P"];
        for request in requests {
            assert_eq!(ask(&table, request, &mut [0; 100]), refused);
        }
    }
}
