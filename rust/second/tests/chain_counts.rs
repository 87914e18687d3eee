//! Order 4 of document 02 in the generated jobs: targets are set with whole chains moved, and with
//! lists that are wrong in each way.

use std::collections::BTreeMap;

use second::desk::{read_request, table_length, Request};
use second::generate::{job, JOBS, SEED};
use second::rules::check;
use second::table::{read_content, Part, Placed};
use second::{MOST_BYTES, MOST_RECORDS};

/// A code with canReorder F or N: its id, its half by its mark, and that letter.
type Entry = (u16, char, u8);

/// How often a list differs from the old one in this way, with this answer.
type Counts = BTreeMap<(&'static str, &'static str), usize>;

/// By rule 8 every F or N has canDelete N, so that an entry of the old list that is gone is 18.
const MUST_OCCUR: [(&str, &str); 18] = [
    ("chains moved", "accepted"),
    ("chains moved behind a leading N", "accepted"),
    ("chains moved", "refused after 19"),
    ("a leading N elsewhere", "19"),
    ("an N in another chain", "19"),
    ("a chain's inside reordered", "19"),
    ("a chain twice", "19"),
    ("an entry also with the other letter", "19"),
    ("other entries more", "19"),
    ("a chain less", "18"),
    ("an F that became N", "18"),
    ("an N that became F", "18"),
    ("unlike the source, like the old target", "accepted"),
    ("like the source, unlike the old target", "19"),
    ("other, of 200 codes or more", "accepted"),
    ("other, of 200 codes or more", "19"),
    ("other, of 200 codes or more", "refused after 19"),
    ("as many codes as a content has records", "19"),
];

fn list(content: &[Placed]) -> Vec<Entry> {
    let codes = content.iter().filter_map(|placed| placed.inline.code());
    codes
        .filter(|code| b"FN".contains(&code.can_reorder))
        .map(|code| match &code.mark {
            b"PO" | b"SC" => (code.id, '(', code.can_reorder),
            b"PC" | b"EC" => (code.id, ')', code.can_reorder),
            _ => (code.id, ' ', code.can_reorder),
        })
        .collect()
}

/// What is left of a list without the entries of another.
fn without(list: &[Entry], other: &[Entry]) -> Vec<Entry> {
    let mut left = list.to_vec();
    for entry in other {
        if let Some(place) = left.iter().position(|one| one == entry) {
            left.remove(place);
        }
    }
    left
}

/// Each N with the entry directly before it. No entry stands twice in a content of a valid table;
/// so a list of the same entries has the same whole chains exactly if it has the same of these.
fn followers(list: &[Entry]) -> Vec<(Entry, Option<Entry>)> {
    let before = std::iter::once(None).chain(list.iter().copied().map(Some));
    let pairs = list.iter().copied().zip(before);
    let mut followers: Vec<_> = pairs.filter(|(entry, _)| entry.2 == b'N').collect();
    followers.sort();
    followers
}

/// The F of the chain in which an entry stands; none for an N before any F.
fn first_of(list: &[Entry], entry: &Entry) -> Option<Entry> {
    let place = list.iter().position(|one| one == entry)?;
    list[..=place].iter().rev().find(|one| one.2 == b'F').copied()
}

/// Whether a list has all of a chain of the old list, its F and the N behind it.
fn has_chain(list: &[Entry], old: &[Entry]) -> bool {
    let chains = old.chunk_by(|_, next| next.2 != b'F').filter(|chain| chain[0].2 == b'F');
    chains.into_iter().any(|chain| chain.iter().all(|entry| list.contains(entry)))
}

fn difference(old: &[Entry], new: &[Entry]) -> &'static str {
    let (more, less) = (without(new, old), without(old, new));
    let other_letter = |&(id, half, letter): &Entry| match letter {
        b'F' => (id, half, b'N'),
        _ => (id, half, b'F'),
    };
    let became = less.iter().find(|entry| more.contains(&other_letter(entry)));
    match (&more[..], &less[..]) {
        ([], []) => displaced(old, new),
        (_, []) if more.iter().any(|entry| old.contains(&other_letter(entry))) => {
            "an entry also with the other letter"
        }
        (_, []) if has_chain(&more, old) => "a chain twice",
        (_, []) => "other entries more",
        _ if became.is_some_and(|entry| entry.2 == b'F') => "an F that became N",
        _ if became.is_some() => "an N that became F",
        _ if has_chain(&less, old) => "a chain less",
        _ => "other entries less",
    }
}

/// The same entries, perhaps in another sequence.
fn displaced(old: &[Entry], new: &[Entry]) -> &'static str {
    let leads = |entry: &Entry| first_of(old, entry).is_none();
    let changes_chain = |entry: &Entry| first_of(old, entry) != first_of(new, entry);
    let changed: Vec<Entry> = old.iter().copied().filter(changes_chain).collect();
    if old == new {
        "the same"
    } else if followers(old) == followers(new) {
        if leads(&old[0]) {
            "chains moved behind a leading N"
        } else {
            "chains moved"
        }
    } else if changed.iter().any(leads) {
        "a leading N elsewhere"
    } else if !changed.is_empty() {
        "an N in another chain"
    } else {
        "a chain's inside reordered"
    }
}

fn is_rearrangement(old: &[Entry], new: &[Entry]) -> bool {
    let difference = difference(old, new);
    difference == "the same" || difference.starts_with("chains moved")
}

/// Each set target of a job whose part is there and whose content can be read.
fn count(counts: &mut Counts, job: &[u8]) {
    let mut offset = table_length(job);
    let mut table = job[..offset].to_vec();
    while let (Ok(unit), Some((request, length))) = (check(&table), read_request(job, offset)) {
        let answer = request.run(&table, MOST_BYTES);
        if let Request::SetTarget { part, content, .. } = &request {
            let number = answer.as_ref().map_or_else(|refusal| refusal.number, |_| 0);
            if let (Some(part), Ok(new)) = (unit.part(*part), read_content(content)) {
                count_set_target(counts, part, &list(&new), number);
            }
        }
        table = answer.unwrap_or(table);
        offset += length;
    }
}

/// Counts what 18, 19 or a number behind them answers; 19 comes exactly where it must.
fn count_set_target(counts: &mut Counts, part: &Part, new: &[Entry], number: u16) {
    let source = list(&part.source);
    let old = part.target.as_ref().map_or(source.clone(), |target| list(&target.content));
    let answer = match number {
        2 => return,
        0 => "accepted",
        18 => "18",
        19 => "19",
        _ => "refused after 19",
    };
    let like_old = is_rearrangement(&old, new);
    assert!(number == 18 || like_old == (number != 19), "{old:?}\n{new:?}\n{answer}");
    assert!(number == 18 || without(&old, new).is_empty(), "{old:?}\n{new:?}\n{answer}");
    let mut add = |name| *counts.entry((name, answer)).or_default() += 1;
    add(difference(&old, new));
    match (is_rearrangement(&source, new), like_old) {
        (false, true) => add("unlike the source, like the old target"),
        (true, false) => add("like the source, unlike the old target"),
        _ => {}
    }
    if old != new && old.len() >= 200 {
        add("other, of 200 codes or more");
    }
    if new.len() == MOST_RECORDS {
        add("as many codes as a content has records");
    }
}

/// The generated jobs that `./test` compares with the desk program.
#[test]
fn generated_jobs_move_chains() {
    let mut counts = Counts::new();
    (0..JOBS as u64).for_each(|number| count(&mut counts, &job(SEED, number).1));
    counts.iter().for_each(|((difference, answer), count)| {
        println!("{count:>6}  {difference}: {answer}");
    });
    for expected in MUST_OCCUR {
        assert!(counts.get(&expected) >= Some(&10), "too seldom: {expected:?}");
    }
}
