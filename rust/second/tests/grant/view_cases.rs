//! What is delicate in a view.

use second::generate::GrantJob;
use second::rules::check;
use second::table::{Part, PartKind, Unit};

use super::cases::role_name;
use super::judge::is_shown;

/// The cases of a valid unit's view, which is these bytes with output enough.
pub fn in_view(job: &GrantJob, unit: &Unit, view: &[u8]) -> Vec<String> {
    let mut cases = vec![format!("view of a role: {}", role_name(job.role))];
    let shown = |position: u16| is_shown(job.role, &job.positions, position);
    let parts = || unit.parts.iter().zip(1..);
    let outside: Vec<&Part> = parts().filter(|(_, p)| !shown(*p)).map(|(part, _)| part).collect();
    let inside: Vec<&Part> = parts().filter(|(_, p)| shown(*p)).map(|(part, _)| part).collect();
    cases.extend(outside.iter().flat_map(|part| hidden(part)));
    let has_target = |part: &&&Part| part.target.is_some();
    let counts = [&outside, &inside].map(|parts| parts.iter().filter(has_target).count());
    cases.extend(
        [
            (counts[0] > 0 && counts[1] > 0, "targets hidden and targets shown"),
            (counts[0] > 0 && counts[1] == 0, "every target hidden"),
            (outside.is_empty() && job.role != b'E', "no part outside"),
            (!outside.is_empty() && view == job.table, "parts outside, nothing to hide"),
            (unit.parts.len() == 64, "a view of 64 parts"),
            (unit.parts.len() == 64 && counts[0] > 0 && counts[1] > 0, "some of 64 targets hidden"),
            (order_kept(&inside, &outside), "a shown order above a hidden one"),
            (job.role == b'E' && job.positions.is_empty(), "an engineer without positions"),
            (
                (view.len()..job.table.len()).contains(&job.room),
                "an output shorter than the table is enough",
            ),
        ]
        .into_iter()
        .filter(|(holds, _)| *holds)
        .map(|(_, case)| case.to_string()),
    );
    cases.push(match check(view) {
        Ok(_) => "the view passes the check".into(),
        Err(_) => "the view fails the check".into(),
    });
    cases
}

/// Where orders counted anew would be others.
fn order_kept(inside: &[&Part], outside: &[&Part]) -> bool {
    let order = |part: &&Part| part.target.as_ref().map(|target| target.order);
    let lowest = outside.iter().filter_map(order).min();
    lowest.is_some_and(|lowest| inside.iter().filter_map(order).any(|order| order > lowest))
}

fn hidden(part: &Part) -> Vec<String> {
    let mut cases = Vec::new();
    let with = if part.target.is_some() { "with" } else { "without" };
    match part.kind {
        PartKind::Segment { state, .. } => {
            cases.push(format!("state {} hidden, {with} target", state as char));
        }
        PartKind::Ignorable => cases.push(format!("an ignorable {with} target outside")),
    }
    let empty = part.target.as_ref().is_some_and(|target| target.content.is_empty());
    cases.extend(empty.then(|| "an empty target hidden".into()));
    cases
}

/// How long the output is, beside a view or a result of so many bytes.
pub fn of_room(job: &GrantJob, needed: usize) -> &'static str {
    match job.room.checked_sub(needed) {
        Some(0) => "output just long enough",
        Some(1) => "output one byte longer",
        Some(_) => "output far longer",
        None if job.room == 0 => "15 with no output",
        None if job.room + 1 == needed => "15 by one byte",
        None => "15 by more",
    }
}
