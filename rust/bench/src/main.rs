//! The proved desk beside two of plain Rust: the second implementation, which is written for
//! clarity, and a tuned one. Same inputs, one run, batches in alternation, the best of many, in
//! several passes over all rows (a virtual machine is slower for seconds at a time); what counts is
//! the ratios.
//!
//! From the repository's top folder, with the settings that the tuned one is written for:
//!
//!     (cd crates/desk_library && rt lib)
//!     mkdir -p target/staticlib && cp crates/desk_library/out/libdesk_library.a target/staticlib/
//!     cargo run --profile measured --manifest-path rust/Cargo.toml -p bench

mod grants;
mod units;

use std::hint::black_box;
use std::time::Instant;

use second::operations as plain;
use units::Unit;
use xliff_desk::{Form, Side, State};

const PASSES: usize = 10;
const ROUNDS: usize = 40;
const ROOM: usize = 8192;

/// An output that every sheet fits.
const SHEET_ROOM: usize = 20 * ROOM;

/// An operation on a unit: the best times of proved, plain and tuned, in microseconds.
struct Row {
    unit: &'static str,
    name: &'static str,
    accepted: bool,
    best: [f64; 3],
}

fn main() {
    let units = units::all();
    let chains = units::chains();
    for unit in units.iter().chain(&chains) {
        assert!(xliff_desk::check(&unit.table).is_ok(), "{} is not valid", unit.name);
        let records = second::rules::check(&unit.table).expect("valid").records().len();
        println!("# {}: {} bytes, {records} records", unit.name, unit.table.len());
    }
    let mut rows = measure(&units, &chains);
    for _ in 1..PASSES {
        for (row, again) in rows.iter_mut().zip(measure(&units, &chains)) {
            row.best = lower(row.best, again.best);
        }
    }
    println!(
        "{:<10} {:<14} {:>10} {:>10} {:>10} {:>9} {:>9}",
        "unit", "operation", "proved us", "plain us", "tuned us", "to plain", "to tuned"
    );
    rows.iter().for_each(print);
}

fn measure(units: &[Unit], chains: &[Unit]) -> Vec<Row> {
    let mut rows = Vec::new();
    for unit in units {
        rows.extend(measure_parts(unit));
        rows.push(measure_set_target(unit));
        rows.extend(measure_targets(unit));
        rows.push(measure_sheet(unit));
        rows.extend(grants::measure(unit));
        rows.push(measure_job(unit));
    }
    rows.extend(chains.iter().map(measure_set_target));
    rows
}

fn lower(one: [f64; 3], other: [f64; 3]) -> [f64; 3] {
    [0, 1, 2].map(|at| one[at].min(other[at]))
}

fn measure_parts(unit: &Unit) -> [Row; 3] {
    let Unit { table, cut, .. } = unit;
    let (out, tuned_out) = (&mut vec![0; ROOM], &mut vec![0; ROOM]);
    let check_row = row(
        unit,
        "check",
        || ok(xliff_desk::check(table)),
        || second::rules::check(table).is_ok(),
        || accepted(tuned::check(table)),
    );
    let split_row = row(
        unit,
        "split",
        || ok(xliff_desk::split(table, 1, *cut, 0, 900, out)),
        || plain::split(table, 1, *cut, 0, 900, ROOM).is_ok(),
        || accepted(tuned::split(table, 1, *cut, 0, 900, tuned_out)),
    );
    let join_row = row(
        unit,
        "join",
        || ok(xliff_desk::join(table, 1, out)),
        || plain::join(table, 1, ROOM).is_ok(),
        || accepted(tuned::join(table, 1, tuned_out)),
    );
    [check_row, split_row, join_row]
}

fn measure_set_target(unit: &Unit) -> Row {
    let Unit { table, content, .. } = unit;
    let (out, tuned_out) = (&mut vec![0; ROOM], &mut vec![0; ROOM]);
    row(
        unit,
        "set target",
        || ok(xliff_desk::set_target(table, 1, State::Translated, content, out)),
        || plain::set_target(table, 1, b'T', content, ROOM).is_ok(),
        || accepted(tuned::set_target(table, 1, b'T', content, tuned_out)),
    )
}

fn measure_targets(unit: &Unit) -> [Row; 2] {
    let Unit { table, pair, .. } = unit;
    let (out, tuned_out) = (&mut vec![0; ROOM], &mut vec![0; ROOM]);
    let remove_target_row = row(
        unit,
        "remove target",
        || ok(xliff_desk::remove_target(table, 1, out)),
        || plain::remove_target(table, 1, ROOM).is_ok(),
        || accepted(tuned::remove_target(table, 1, tuned_out)),
    );
    let rewrite_row = row(
        unit,
        "rewrite",
        || ok(xliff_desk::rewrite(table, Side::Source, *pair, Form::StartAndEnd, out)),
        || plain::rewrite(table, b'S', *pair, b'S', ROOM).is_ok(),
        || accepted(tuned::rewrite(table, b'S', *pair, b'S', tuned_out)),
    );
    [remove_target_row, rewrite_row]
}

/// The three sheets are equal too.
fn measure_sheet(unit: &Unit) -> Row {
    let table = &unit.table;
    let (out, tuned_out) = (&mut vec![0; SHEET_ROOM], &mut vec![0; SHEET_ROOM]);
    let measured = row(
        unit,
        "sheet",
        || ok(xliff_desk::sheet(table, out)),
        || second::sheet::sheet(table, SHEET_ROOM).is_ok(),
        || accepted(tuned::sheet(table, tuned_out)),
    );
    let plain_out = second::sheet::sheet(table, SHEET_ROOM).expect("a valid unit");
    assert!(out.starts_with(&plain_out) && out == tuned_out, "the sheets of {} differ", unit.name);
    measured
}

/// The request that sets the target of part 1.
fn set_request(content: &[u8]) -> Vec<u8> {
    let length = (content.len() as u16).to_be_bytes();
    [b"ST\0\x01T".as_slice(), &length, content].concat()
}

fn measure_job(unit: &Unit) -> Row {
    let job = five_requests(unit);
    row(
        unit,
        "five requests",
        || xliff_desk::job(&job).len() > 5,
        || second::desk::desk(&job).len() > 5,
        || tuned::run_job(&job).len() > 5,
    )
}

/// A job with one request of each operation.
fn five_requests(unit: &Unit) -> Vec<u8> {
    let (pair, cut) = (unit.pair.to_be_bytes(), unit.cut.to_be_bytes());
    [
        unit.table.as_slice(),
        &[b"SP\0\x01".as_slice(), &cut, b"\0\0\x03\x84"].concat(),
        b"JN\0\x01",
        &set_request(&unit.content),
        b"RT\0\x01",
        &[b"RWS".as_slice(), &pair, b"S"].concat(),
    ]
    .concat()
}

fn ok(answer: xliff_desk::Answer) -> bool {
    answer.is_ok()
}

fn accepted(answer: tuned::Answer) -> bool {
    matches!(answer, tuned::Answer::Accepted(_))
}

/// All three answer alike; then each is timed.
fn row(
    unit: &Unit,
    name: &'static str,
    mut proved: impl FnMut() -> bool,
    mut plain: impl FnMut() -> bool,
    mut tuned: impl FnMut() -> bool,
) -> Row {
    let accepted = proved();
    assert_eq!((accepted, accepted), (plain(), tuned()), "{} {name}", unit.name);
    let mut best = [f64::MAX; 3];
    for _ in 0..ROUNDS {
        best = lower(best, [time(&mut proved), time(&mut plain), time(&mut tuned)]);
    }
    Row { unit: unit.name, name, accepted, best }
}

fn print(row: &Row) {
    let [proved, plain, tuned] = row.best;
    let refused = if row.accepted { "" } else { " (refused)" };
    println!(
        "{:<10} {:<14} {proved:>10.2} {plain:>10.2} {tuned:>10.2} {:>9.2} {:>9.2}{refused}",
        row.unit,
        row.name,
        proved / plain,
        proved / tuned
    );
}

/// Microseconds for one call, over a batch of at least half a millisecond.
fn time(call: &mut impl FnMut() -> bool) -> f64 {
    let start = Instant::now();
    let mut calls = 0u32;
    while start.elapsed().as_micros() < 500 {
        for _ in 0..4 {
            black_box(call());
        }
        calls += 4;
    }
    start.elapsed().as_secs_f64() * 1e6 / f64::from(calls)
}
