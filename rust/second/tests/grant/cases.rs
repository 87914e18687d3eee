//! What is delicate in a call with a grant.

use second::desk::Request;
use second::generate::GrantJob;
use second::table::Unit;

use super::judge::{halves, is_listed};

pub fn role_name(role: u8) -> &'static str {
    match role {
        b'T' => "translator",
        b'R' => "reviewer",
        b'E' => "engineer",
        b't' | b'r' | b'e' => "small letter",
        _ => "other letter",
    }
}

fn call_name(request: &Request) -> &'static str {
    match request {
        Request::Split { .. } => "split",
        Request::Join { .. } => "join",
        Request::SetTarget { .. } => "set target",
        Request::RemoveTarget { .. } => "remove target",
        Request::Rewrite { .. } => "rewrite",
    }
}

/// What is odd in the positions, of whatever is asked.
pub fn in_positions(job: &GrantJob, unit: &Unit) -> Vec<&'static str> {
    let (positions, parts) = (&job.positions, unit.parts.len());
    let all = (1..=parts as u16).all(|part| is_listed(positions, part));
    let twice = |position: &u8| positions.iter().filter(|p| *p == position).count() > 1;
    let cases = [
        (positions.is_empty(), "no position"),
        (all, "every position"),
        (positions.iter().any(twice), "a position twice"),
        (positions.contains(&0), "position 0"),
        (positions.iter().any(|p| usize::from(*p) > parts), "a position beyond the unit"),
        (positions.len() > 64, "more positions than a unit has parts"),
        (!positions.is_sorted(), "positions not rising"),
    ];
    cases.into_iter().filter(|(holds, _)| *holds).map(|(_, case)| case).collect()
}

/// Of a readable request to a valid unit, refused by this number or accepted (0).
pub fn in_call(job: &GrantJob, unit: &Unit, request: &Request, number: u16) -> Vec<String> {
    let (role, call) = (role_name(job.role), call_name(request));
    let answer = match number {
        0 => "accepted",
        24 => "24",
        _ => "refused by its own number",
    };
    let mut cases = vec![format!("{role}, {call}: {answer}")];
    match request {
        Request::Split { part, .. } if is_listed(&job.positions, *part) => {
            cases.push(format!("{role}, split of a listed part: {answer}"));
        }
        Request::Join { part }
            if [*part, part.saturating_add(1)].map(|p| is_listed(&job.positions, p))
                == [true; 2] =>
        {
            cases.push(format!("{role}, join of two listed parts: {answer}"));
        }
        Request::SetTarget { part, .. } | Request::RemoveTarget { part } => {
            let place = place(job, unit, *part);
            let answer = if number == 2 { "its own answer" } else { by_number(number) };
            let call = if b"TR".contains(&job.role) { call } else { "target" };
            cases.push(format!("{role}, {call}, {place}: {answer}"));
        }
        Request::Rewrite { side, id, form } if job.role == b'R' => {
            cases.extend(in_rewrite(job, unit, (*side, *id, *form), number));
        }
        _ => {}
    }
    cases
}

/// Of a reviewer's rewrite.
fn in_rewrite(job: &GrantJob, unit: &Unit, rewrite: (u8, u16, u8), number: u16) -> Vec<String> {
    let (side, id, form) = rewrite;
    let answer = by_number(number);
    if !b"PS".contains(&form) {
        let granted = if number == 24 { "not granted" } else { "granted" };
        return vec![format!("rewrite, wrong form letter, {granted}: {answer}")];
    }
    let mut cases = vec![format!("rewrite, {}: {answer}", found(job, unit, side, id))];
    cases.extend(compared(job, unit, side, id).map(|case| format!("rewrite, {case}: {answer}")));
    cases
}

fn by_number(number: u16) -> &'static str {
    match number {
        24 => "24",
        11 => "11",
        2 => "2",
        _ => "its own answer",
    }
}

/// Where the part of a set target or remove target stands.
fn place(job: &GrantJob, unit: &Unit, part: u16) -> &'static str {
    let low_byte = job.positions.contains(&(part as u8));
    match (part, is_listed(&job.positions, part)) {
        (256.., _) if low_byte => "part above 255, its low byte listed",
        (256.., _) => "part above 255",
        (0, true) => "part 0, listed",
        (0, false) => "part 0, not listed",
        (_, true) if unit.part(part).is_none() => "part beyond, listed",
        (_, false) if unit.part(part).is_none() => "part beyond, not listed",
        (_, true) => "own part",
        (_, false) => "other part",
    }
}

/// What a rewrite names, and which of its parts are listed.
fn found(job: &GrantJob, unit: &Unit, side: u8, id: u16) -> String {
    let listed = |part: u16| is_listed(&job.positions, part);
    let name = match side {
        b'S' => "source",
        b'T' => "target",
        _ => return "wrong side letter".into(),
    };
    let class = class(unit, id);
    match halves(unit, side, id)[..] {
        [one, two] if one == two => {
            let which = if listed(one) { "listed" } else { "not listed" };
            format!("{name} {class} in one part, {which}")
        }
        [one, two] => {
            let which = match (listed(one), listed(two)) {
                (true, true) => "both listed",
                (true, false) => "the first listed",
                (false, true) => "the second listed",
                (false, false) => "none listed",
            };
            format!("{name} {class} in two parts, {which}")
        }
        [one] if listed(one) => format!("{name} lone half, listed"),
        [_] => format!("{name} lone half, not listed"),
        _ if class == "neither" => format!("{name} without the id, or a code without halves"),
        _ => format!("{name} without the id, the other side has it"),
    }
}

/// Whether halves of this id, on either side, are of a pair or of an annotation.
fn class(unit: &Unit, id: u16) -> &'static str {
    let contents = unit.parts.iter().flat_map(|part| {
        let target = part.target.iter().flat_map(|target| &target.content);
        part.source.iter().chain(target)
    });
    let half =
        contents.map(|placed| &placed.inline).find(|i| i.id() == Some(id) && i.half().is_some());
    match half {
        Some(half) if half.code().is_some() => "pair",
        Some(_) => "annotation",
        None => "neither",
    }
}

/// Where another way to find the parts of a complete pair or annotation would say otherwise.
fn compared(job: &GrantJob, unit: &Unit, side: u8, id: u16) -> impl Iterator<Item = &'static str> {
    let all_listed = |parts: &[u16]| {
        parts.len() == 2 && parts.iter().all(|part| is_listed(&job.positions, *part))
    };
    let [here, source, target] = [side, b'S', b'T'].map(|side| halves(unit, side, id));
    let orders: Vec<u16> =
        target.iter().filter_map(|part| Some(unit.part(*part)?.target.as_ref()?.order)).collect();
    let (whole, granted) = (here.len() == 2, all_listed(&here));
    let on_target = whole && side == b'T';
    let on_source = whole && side == b'S';
    let cases = [
        (on_target && granted && !all_listed(&orders), "target listed by position, not by order"),
        (on_target && !granted && all_listed(&orders), "target listed by order, not by position"),
        (
            on_target && granted && source.len() == 2 && !all_listed(&source),
            "target listed, source not",
        ),
        (on_target && !granted && all_listed(&source), "source listed, target not, target asked"),
        (
            on_source && granted && target.len() == 2 && !all_listed(&target),
            "source listed, target not",
        ),
        (on_source && !granted && all_listed(&target), "target listed, source not, source asked"),
    ];
    cases.into_iter().filter(|(holds, _)| *holds).map(|(_, case)| case)
}
