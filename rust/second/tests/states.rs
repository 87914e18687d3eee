//! Order 3 of document 02: the earliest of two states, all sixteen pairs.

use std::collections::BTreeMap;

use second::desk::{desk, from_hexadecimal, hexadecimal, read_request, table_length, Request};
use second::generate::{job, JOBS, SEED};
use second::rules::check;
use second::table::{Part, PartKind};
use second::MOST_BYTES;

/// The states of source document 000 in its order: initial, translated, reviewed, final.
const STATES: &[u8; 4] = b"ITRF";

/// A row for each state of the first segment; in it the earliest with each state of the second.
const EARLIEST: [&[u8; 4]; 4] = [b"IIII", b"ITTT", b"ITRR", b"ITRF"];

/// Each pair of states with its earliest, row by row.
fn pairs() -> impl Iterator<Item = (u8, u8, u8)> {
    let row = |row: usize| (0..4).map(move |at| (STATES[row], STATES[at], EARLIEST[row][at]));
    (0..4).flat_map(row)
}

/// "A" with the target "a" and "B" with the target "b", in these states; then `JN` 1.
fn joining(first: u8, second: u8) -> Vec<u8> {
    let first = [b"SG\0\x01-", [first].as_slice(), b"TX\0\x01ATG\0\x01TX\0\x01a"].concat();
    let second = [b"SG\0\x02-", [second].as_slice(), b"TX\0\x01BTG\0\x02TX\0\x01b"].concat();
    [b"UNY", first.as_slice(), &second, b"UEJN\0\x01"].concat()
}

/// What the desk prints of both in one.
fn joined(state: u8) -> String {
    let table = [b"UNYSG\0\x01-", [state].as_slice(), b"TX\0\x02ABTG\0\x01TX\0\x02abUE"].concat();
    format!("OK {}\n{}\n", table.len(), hexadecimal(&table))
}

#[test]
fn the_sixteen_pairs() {
    for (first, second, earliest) in pairs() {
        let printed = desk(&joining(first, second));
        assert_eq!(String::from_utf8_lossy(&printed), joined(earliest));
    }
}

/// `vectors/states.txt`, which `./test` runs through the desk program, has these sixteen jobs.
#[test]
fn the_vectors_are_the_sixteen_pairs() {
    let path = concat!(env!("CARGO_MANIFEST_DIR"), "/../../vectors/states.txt");
    let file = std::fs::read_to_string(path).expect("the file of vectors");
    let lines: Vec<_> = file
        .lines()
        .map(|line| line.split_once(' ').expect("two words a line"))
        .map(|words| [words.0, words.1].map(|word| from_hexadecimal(word).expect("hexadecimal")))
        .collect();
    let expected: Vec<_> = pairs()
        .map(|(first, second, earliest)| [joining(first, second), joined(earliest).into_bytes()])
        .collect();
    assert_eq!(lines, expected);
}

/// The states of two neighbours, if both are segments.
fn states(part: &Part, next: &Part) -> Option<(char, char)> {
    match (part.kind, next.kind) {
        (PartKind::Segment { state: one, .. }, PartKind::Segment { state: two, .. }) => {
            Some((one.into(), two.into()))
        }
        _ => None,
    }
}

/// The states of the segments that a job joins.
fn count(pairs: &mut BTreeMap<(char, char), usize>, job: &[u8]) {
    let mut offset = table_length(job);
    let mut table = job[..offset].to_vec();
    while let Some((request, length)) = read_request(job, offset) {
        let answer = request.run(&table, MOST_BYTES);
        if let (Request::Join { part }, Ok(_)) = (&request, &answer) {
            let unit = check(&table).expect("past the check");
            let [one, two] = [*part, part + 1].map(|n| unit.part(n).expect("past 11"));
            if let Some(both) = states(one, two) {
                *pairs.entry(both).or_default() += 1;
            }
        }
        table = answer.unwrap_or(table);
        offset += length;
    }
}

/// The generated jobs that `./test` compares with the desk program join segments of all pairs.
#[test]
fn generated_jobs_join_all_pairs() {
    let mut counts = BTreeMap::new();
    (0..JOBS as u64).for_each(|number| count(&mut counts, &job(SEED, number).1));
    println!("{counts:?}");
    assert_eq!(counts.len(), 16, "a pair of states is never joined");
    assert!(counts.values().all(|count| *count >= 5), "a pair of states is joined too seldom");
}
