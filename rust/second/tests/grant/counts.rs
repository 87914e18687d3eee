//! The jobs that `./test` compares: each is judged, and the delicate cases occur.

use second::desk::{read_request, Request};
use second::generate::{grant_job, GrantJob, GrantKind, LineJob, LineKind, JOBS, SEED};
use second::lines::answered;
use second::rules::check;
use second::table::Unit;

use super::cases::{in_call, in_positions};
use super::counted::Counts;
use super::expected::{put_together, ANY, CALLS, REWRITES, VIEWS};
use super::judge::{cut_out, is_granted};
use super::view_cases::{in_view, of_room};
use super::*;

impl Counts {
    /// A job, judged from the order's words.
    fn add_job(&mut self, job: &GrantJob) {
        let name = if job.request.is_none() { "view" } else { "call" };
        let read = match &job.request {
            None => None,
            Some(bytes) => match read_request(bytes, 0).filter(|(_, size)| *size == bytes.len()) {
                Some((request, _)) => Some(request),
                None => {
                    assert_eq!((job.kind, job.answer()), (GrantKind::Unreadable, "BAD".into()));
                    return self.add("BAD");
                }
            },
        };
        let unit = match check(&job.table) {
            Ok(unit) => unit,
            Err(refusal) => {
                assert_eq!((job.kind, job.answer()), (GrantKind::Refused, answered(Err(refusal))));
                return self.add(format!("{name} refused by {}", refusal.number));
            }
        };
        in_positions(job, &unit).iter().for_each(|case| self.add(format!("{name}: {case}")));
        match read {
            None => self.add_view(job, &unit),
            Some(request) => self.add_call(job, &unit, &request),
        }
    }

    fn add_view(&mut self, job: &GrantJob, unit: &Unit) {
        let view = cut_out(job.role, &job.positions, &job.table);
        in_view(job, unit, &view).into_iter().for_each(|case| self.add(case));
        self.add(format!("view: {}", of_room(job, view.len())));
        let expected = if job.room < view.len() { refused(15, 0) } else { Ok(view) };
        assert_eq!(job.answer(), answered(expected), "{job:?}");
    }

    fn add_call(&mut self, job: &GrantJob, unit: &Unit, request: &Request) {
        let own = request.run(&job.table, job.room);
        let granted = is_granted(job.role, &job.positions, unit, request);
        let expected = if granted { own.clone() } else { refused(24, 0) };
        assert_eq!(job.answer(), answered(expected.clone()), "{job:?}");
        let number = expected.map_or_else(|refusal| refusal.number, |_| 0);
        in_call(job, unit, request, number).into_iter().for_each(|case| self.add(case));
        if let Ok(result) = request.run(&job.table, ROOM) {
            let grant = if granted { "granted" } else { "not granted" };
            self.add(format!("{grant}: {}", of_room(job, result.len())));
        }
    }
}

#[test]
fn generated_jobs_are_judged() {
    let mut counts = Counts::default();
    for number in 0..JOBS as u64 {
        let job = grant_job(SEED, number);
        counts.add(job.kind.name());
        counts.add_job(&job);
    }
    counts.print();
    for (kind, share) in GrantKind::ALL.iter().zip(GrantKind::SHARES) {
        counts.must_have(JOBS * share / 100 / 2, [kind.name().to_string()]);
    }
    let cases = [CALLS, REWRITES, VIEWS, ANY].concat();
    counts.must_have(20, cases.into_iter().flat_map(put_together));
}

/// A job's line and its answer are of the line protocol.
#[test]
fn jobs_are_lines() {
    for number in 0..300 {
        let job = grant_job(SEED + 1, number);
        assert_eq!(second::lines::answer(&job.line()), Some(job.answer()));
    }
}
