//! The tuned view and granted call beside the second implementation, so that the bench compares
//! like with like.

use second::desk::read_request;
use second::generate::{grant_job, small_grants, GrantJob};
use second::grant::{granted_call, view};
use second::operations::Outcome;

const SEED: u64 = 18;
const JOBS: u64 = 5000;

/// A request that is unreadable, or has bytes behind it, is 2 after the table's check.
fn expected(job: &GrantJob) -> Outcome {
    let Some(request) = &job.request else { return view(&job.grant(), &job.table, job.room) };
    match read_request(request, 0) {
        Some((read, length)) if length == request.len() => {
            granted_call(&job.grant(), &job.table, &read, job.room)
        }
        _ => {
            second::rules::check(&job.table)?;
            Err(second::Refusal { number: 2, place: 0 })
        }
    }
}

/// Whether the two answer alike, in the whole output too; 23 is not compared, which the tuned one
/// does not have.
fn compare(job: &GrantJob) -> bool {
    let expected = expected(job);
    if expected.as_ref().is_err_and(|refusal| refusal.number == 23) {
        return false;
    }
    let mut out = vec![0xA5; job.room];
    let answer = match &job.request {
        None => tuned::view(job.role, &job.positions, &job.table, &mut out),
        Some(request) => {
            tuned::granted_call(job.role, &job.positions, &job.table, request, &mut out)
        }
    };
    let mut expected_out = vec![0xA5; job.room];
    let expected_answer = match expected {
        Ok(result) => {
            expected_out[..result.len()].copy_from_slice(&result);
            tuned::Answer::Accepted(result.len())
        }
        Err(refusal) => tuned::Answer::Refused(refusal.number as u8, refusal.place),
    };
    assert_eq!(answer, expected_answer, "{job:02X?}");
    assert!(out == expected_out, "the output differs: {job:02X?}");
    true
}

#[test]
fn views_and_granted_calls_agree() {
    let jobs = (0..JOBS).map(|number| grant_job(SEED, number));
    let compared = jobs.filter(compare).count();
    assert!(compared > 4900, "only {compared}");
    assert!(small_grants().iter().all(compare));
}
