//! Order 2 of document 02 in the generated jobs: cuts next to accents are frequent, refused by 23
//! and accepted.

use std::collections::BTreeMap;

use second::desk::{read_request, table_length, Request};
use second::generate::{every_cut, job};
use second::operations::content::{is_accent, items};
use second::record::Inline;
use second::rules::check;
use second::table::Placed;
use second::MOST_BYTES;

const SEED: u64 = 2;
const JOBS: u64 = 4000;

/// How often each occurs, and what must.
type Counts = BTreeMap<&'static str, usize>;

const MUST_OCCUR: [&str; 9] = [
    "23 by the source cut alone",
    "23 by the target cut alone",
    "23 by both",
    "23 between two accents",
    "an accent behind a CP cut off",
    "an accent behind a marker cut off",
    "an accent at a target's start, cut there",
    "a cut behind an accent",
    "U+02FF or U+0370 behind text cut off",
];

/// The items before and behind a cut.
struct Cut {
    before: Option<Inline>,
    behind: Option<Inline>,
}

impl Cut {
    fn of(content: &[Placed], at: u16) -> Cut {
        let items = items(content);
        let (before, behind) = items.split_at(at as usize);
        Cut { before: before.last().cloned(), behind: behind.first().cloned() }
    }

    fn is_behind_accent(&self) -> bool {
        self.before.as_ref().is_some_and(is_accent)
    }

    fn parts_accent(&self) -> bool {
        matches!(self.before, Some(Inline::Text(_))) && self.behind.as_ref().is_some_and(is_accent)
    }
}

/// Each split of a job that is accepted or refused by 23.
fn count(counts: &mut Counts, job: &[u8]) {
    let mut offset = table_length(job);
    let mut table = job[..offset].to_vec();
    while let Some((request, length)) = read_request(job, offset) {
        let answer = request.run(&table, MOST_BYTES);
        if let Request::Split { part, source_cut, target_cut, .. } = request {
            let cuts = || {
                let unit = check(&table).expect("past the check");
                let part = unit.part(part).expect("past 11");
                let target = part.target.as_ref().map(|t| Cut::of(&t.content, target_cut));
                (Cut::of(&part.source, source_cut), target)
            };
            match answer.as_ref().map_err(|refusal| refusal.number) {
                Ok(_) => count_accepted(counts, cuts()),
                Err(23) => count_refused(counts, cuts()),
                Err(_) => {}
            }
        }
        table = answer.unwrap_or(table);
        offset += length;
    }
}

fn count_refused(counts: &mut Counts, (source, target): (Cut, Option<Cut>)) {
    let in_target = target.as_ref().filter(|cut| cut.parts_accent());
    let name = match (source.parts_accent(), in_target) {
        (true, None) => "23 by the source cut alone",
        (false, Some(_)) => "23 by the target cut alone",
        (true, Some(_)) => "23 by both",
        (false, None) => panic!("23, and no accent is parted"),
    };
    *counts.entry(name).or_default() += 1;
    if source.parts_accent() && source.is_behind_accent()
        || in_target.is_some_and(Cut::is_behind_accent)
    {
        *counts.entry("23 between two accents").or_default() += 1;
    }
}

fn count_accepted(counts: &mut Counts, (source, target): (Cut, Option<Cut>)) {
    for cut in [Some(source), target].into_iter().flatten() {
        assert!(!cut.parts_accent(), "an accent is parted");
        let name = match (&cut.before, &cut.behind) {
            (None, Some(item)) if is_accent(item) => "an accent at a target's start, cut there",
            (Some(Inline::Character(_)), Some(item)) if is_accent(item) => {
                "an accent behind a CP cut off"
            }
            (Some(_), Some(item)) if is_accent(item) => "an accent behind a marker cut off",
            (Some(Inline::Text(_)), Some(Inline::Text(text)))
                if ["\u{2FF}", "\u{370}"].map(str::as_bytes).contains(&text.as_slice()) =>
            {
                "U+02FF or U+0370 behind text cut off"
            }
            _ if cut.is_behind_accent() => "a cut behind an accent",
            _ => "other accepted cuts",
        };
        *counts.entry(name).or_default() += 1;
    }
}

fn at_least(least: usize, counts: &Counts) {
    println!("{counts:#?}");
    for name in MUST_OCCUR {
        assert!(counts.get(name) >= Some(&least), "too seldom: {name}");
    }
}

#[test]
fn generated_jobs_cut_next_to_accents() {
    let mut counts = Counts::new();
    (0..JOBS).for_each(|number| count(&mut counts, &job(SEED, number).1));
    at_least(5, &counts);
}

#[test]
fn the_small_units_are_cut_next_to_accents() {
    let mut counts = Counts::new();
    every_cut().iter().for_each(|job| count(&mut counts, job));
    at_least(1, &counts);
}
