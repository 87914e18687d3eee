//! Order 6 of document 02, "Translators see their own parts": with outputs of every kind of length,
//! compared with the second implementation.

mod common;

use common::told;
use second::desk::read_request;
use second::generate::{grant_job, small_grants, GrantJob, Random};
use second::operations::Outcome;
use second::MOST_BYTES;
use xliff_desk::{granted_call, view, Grant, Reason, Refusal, Role};

const SEED: u64 = 17;
const JOBS: u64 = 3000;

/// What the output holds before a call.
const NO_RESULT: u8 = 0xA5;

fn grant(job: &GrantJob) -> Grant<'_> {
    Grant { role: Role::from(job.role), positions: &job.positions }
}

/// What the second implementation answers with an output of this length. A request that is
/// unreadable, or has bytes behind it, is 2 after the table's check.
fn expected(job: &GrantJob, room: usize) -> Outcome {
    let Some(request) = &job.request else {
        return second::grant::view(&job.grant(), &job.table, room);
    };
    match read_request(request, 0) {
        Some((read, length)) if length == request.len() => {
            second::grant::granted_call(&job.grant(), &job.table, &read, room)
        }
        _ => {
            second::rules::check(&job.table)?;
            Err(second::Refusal { number: 2, place: 0 })
        }
    }
}

/// Compares the view or the call with an output of this length.
fn compare(job: &GrantJob, room: usize) {
    let call = |out: &mut [u8]| match &job.request {
        None => view(grant(job), &job.table, out),
        Some(request) => granted_call(grant(job), &job.table, request, out),
    };
    common::compare(call, expected(job, room), room, || format!("{job:02X?}"));
}

/// Lengths around the result's, if there is one, and far from it.
fn rooms(job: &GrantJob) -> Vec<usize> {
    let mut rooms = vec![0, 1, job.room, job.table.len(), MOST_BYTES, MOST_BYTES + 9];
    if let Ok(result) = expected(job, MOST_BYTES) {
        let length = result.len();
        rooms.extend([length - 1, length, length + 1, length + 300]);
    }
    rooms
}

#[test]
fn views_and_calls_with_outputs_of_any_length() {
    let [mut views, mut accepted, mut unreadable] = [0; 3];
    for number in 0..JOBS {
        let job = grant_job(SEED, number);
        let rooms = rooms(&job);
        let has_result = usize::from(rooms.len() > 6);
        match &job.request {
            None => views += has_result,
            Some(request) => {
                accepted += has_result;
                let read = read_request(request, 0).filter(|(_, size)| *size == request.len());
                unreadable += usize::from(read.is_none());
            }
        }
        rooms.into_iter().for_each(|room| compare(&job, room));
    }
    println!("{views} views, {accepted} calls accepted, {unreadable} unreadable requests");
    assert!(views > 300 && accepted > 200 && unreadable > 30, "too few of one kind");
}

#[test]
fn every_grant_of_a_small_unit() {
    small_grants().iter().for_each(|job| compare(job, job.room));
}

/// Two segments and an ignorable; the orders of the targets are not their positions.
const TABLE: &[u8] = b"UNYSG\0\x05-TTX\0\x02upTG\0\x03TX\0\x03auf\
    IG\0\x06TX\0\x01 TG\0\x01TX\0\x01_SG\0\x07YFTX\0\x04downTG\0\x02TX\0\x02abUE";

/// A view in every byte, and behind it the output as it was; with one byte less all of it.
#[test]
fn the_rest_of_the_output_stays() {
    let expected = b"UNYSG\0\x05-ITX\0\x02up\
        IG\0\x06TX\0\x01 SG\0\x07YFTX\0\x04downTG\0\x02TX\0\x02abUE";
    let length = expected.len();
    let grant = Grant { role: Role::Reviewer, positions: &[3, 0, 3, 77] };
    let mut out = vec![NO_RESULT; length + 100];
    assert_eq!(view(grant, TABLE, &mut out), Ok(length));
    assert_eq!(&out[..length], expected);
    assert!(out[length..].iter().all(|&byte| byte == NO_RESULT));
    let mut short = vec![NO_RESULT; length - 1];
    let refusal = Refusal { reason: Reason::TooLarge, place: 0 };
    assert_eq!(view(grant, TABLE, &mut short), Err(refusal));
    assert!(short.iter().all(|&byte| byte == NO_RESULT));
    // the table is checked first
    let refusal = Refusal { reason: Reason::BadRecord, place: 3 };
    assert_eq!(view(grant, b"UNYUE", &mut short), Err(refusal));
    assert_eq!(granted_call(grant, b"UNYUE", b"JN\0\x01", &mut short), Err(refusal));
    assert!(short.iter().all(|&byte| byte == NO_RESULT));
}

/// Unknown marks, requests cut short, bytes behind a request: 2 with place 0, whatever the grant,
/// and the output stays.
#[test]
fn unreadable_requests_are_refused_after_the_check() {
    let requests: [&[u8]; 7] = [
        b"",
        b"J",
        b"JN\0",
        b"JN\0\x01\0",
        b"XX\0\x01",
        b"ST\0\x01T\0\x05TX\0\x01",
        b"RT\0\x01RT\0\x01",
    ];
    for role in [Role::Translator, Role::Reviewer, Role::Engineer, Role::Raw(b'X')] {
        for request in requests {
            let grant = Grant { role, positions: &[1, 2, 3] };
            let mut out = [NO_RESULT; 100];
            let refusal = Refusal { reason: Reason::BadRecord, place: 0 };
            assert_eq!(granted_call(grant, TABLE, request, &mut out), Err(refusal));
            // in a refused table the check comes first
            let refusal = Refusal { reason: Reason::IdMetEarlier, place: 7 };
            let refused = granted_call(grant, b"UNYIG\0\x05IG\0\x05UE", request, &mut out);
            assert_eq!(refused, Err(refusal));
            assert_eq!(out, [NO_RESULT; 100]);
        }
    }
}

/// Each byte as a role, each byte as the only position, and every byte at once.
#[test]
fn every_role_and_every_position() {
    let every: Vec<u8> = (0..=255).collect();
    let job = |role, positions: &[u8], request: Option<&[u8]>| GrantJob {
        kind: second::generate::GrantKind::View,
        role,
        positions: positions.to_vec(),
        room: MOST_BYTES,
        table: TABLE.to_vec(),
        request: request.map(Vec::from),
    };
    let asked: [Option<&[u8]>; 3] = [None, Some(b"RT\0\x03"), Some(b"RT\x01\x03")];
    for (byte, request) in every.iter().flat_map(|byte| asked.map(|request| (*byte, request))) {
        compare(&job(byte, &[1, 3], request), MOST_BYTES);
        compare(&job(byte, &every, request), MOST_BYTES);
        compare(&job(b'T', &[byte], request), MOST_BYTES);
        compare(&job(b'R', &[byte; 1000], request), MOST_BYTES);
    }
}

/// Bytes that are random are refused as the check refuses them.
#[test]
fn random_bytes_are_refused() {
    let random = &mut Random::of_job(SEED, 0);
    for length in (0..300).chain([8191, 8192, 8193, 20000]) {
        let bytes: Vec<u8> = (0..length).map(|_| random.below(256) as u8).collect();
        let refused = second::rules::check(&bytes).map(|_| 0).map_err(told);
        let positions = &bytes[..bytes.len().min(64)];
        for role in [Role::Translator, Role::Engineer, Role::Raw(0)] {
            let grant = Grant { role, positions };
            assert_eq!(view(grant, &bytes, &mut [0; 100]), refused);
            assert_eq!(granted_call(grant, &bytes, b"RT\0\x01", &mut [0; 100]), refused);
            assert_eq!(granted_call(grant, &bytes, &bytes, &mut [0; 100]), refused);
        }
    }
}
