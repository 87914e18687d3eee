//! Jobs from text, and the job of two suppliers.

use deskjob::job::Job;
use xliff_desk::{Grant, Role};

pub const SUPPLIERS: &str = include_str!("../../examples/suppliers.txt");
pub const SUPPLIERS_REQUESTS: &str = include_str!("../../examples/suppliers-requests.txt");

/// The first supplier's grant.
pub const FIRST: Grant = Grant { role: Role::Translator, positions: &[1] };

pub fn job(text: &str) -> Job {
    Job::read(text.into()).unwrap()
}

pub fn with_requests(text: &str, requests: &str) -> Job {
    let mut job = job(text);
    job.add_requests(requests.into()).unwrap();
    job
}
