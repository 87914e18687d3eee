//! Compares a desk program with the second implementation on seeded jobs, and with the vectors
//! of a file; or, as `differential lines`, a program that answers lines. Ends with 0 if all agree,
//! 1 at the first difference, 2 if it cannot compare.

mod arguments;
mod compare;
mod lines;
mod vectors;

use std::process::ExitCode;
use std::sync::Mutex;

use arguments::Arguments;
use compare::{compare, Case};
use second::desk::{desk, NUMBERS};
use second::generate::{every_cut, job, splits_undone, Kind};
use second::tally::Tally;

fn main() -> ExitCode {
    let arguments = match arguments::read(std::env::args().skip(1)) {
        Ok(arguments) => arguments,
        Err(error) => {
            eprintln!("{error}\n{}", arguments::USAGE);
            return ExitCode::from(2);
        }
    };
    if arguments.lines {
        return lines::compare(&arguments);
    }
    let vectors = match vectors::read_all(&arguments.vectors) {
        Ok(vectors) => vectors,
        Err(error) => {
            eprintln!("{error}");
            return ExitCode::from(2);
        }
    };
    let results = Results::default();
    let outcome = compare_generated(&arguments, &results)
        .and_then(|()| compare_cuts(&arguments, &results))
        .and_then(|()| compare_undone(&arguments, &results))
        .and_then(|()| compare_vectors(&arguments, vectors, &results));
    results.print(&arguments, outcome)
}

/// What agreed so far.
#[derive(Default)]
struct Results {
    tally: Mutex<Tally>,
    kinds: Mutex<[usize; Kind::ALL.len()]>,
    cuts: Mutex<usize>,
    undone: Mutex<usize>,
    vectors: Mutex<usize>,
}

fn compare_generated(arguments: &Arguments, results: &Results) -> Result<(), String> {
    let seed = arguments.seed;
    let case = |number: usize| {
        let (kind, job) = job(seed, number as u64);
        let name = format!("job {number} of seed {seed} ({})", kind.name());
        Case { name, kind: Some(kind), expected: desk(&job), job }
    };
    compare(&arguments.program, arguments.jobs, case, |case| {
        let place = Kind::ALL.iter().position(|kind| Some(*kind) == case.kind);
        results.kinds.lock().unwrap()[place.expect("a known kind")] += 1;
        results.tally.lock().unwrap().count(&case.expected);
    })
}

/// Small units cut at every position.
fn compare_cuts(arguments: &Arguments, results: &Results) -> Result<(), String> {
    let jobs = every_cut();
    let case = |number: usize| {
        let job = jobs[number].clone();
        let name = format!("cut {number} of the small units");
        Case { name, kind: None, expected: desk(&job), job }
    };
    compare(&arguments.program, jobs.len(), case, |case| {
        *results.cuts.lock().unwrap() += 1;
        results.tally.lock().unwrap().count(&case.expected);
    })
}

/// Lists of splits undone in reverse: what document 02, order 11, says must be printed.
fn compare_undone(arguments: &Arguments, results: &Results) -> Result<(), String> {
    let seed = arguments.seed;
    let case = |number: usize| {
        let list = splits_undone(seed, number as u64);
        let name = format!("list of splits {number} of seed {seed}, undone in reverse");
        Case { name, kind: None, expected: list.printed(), job: list.job() }
    };
    compare(&arguments.program, arguments.jobs.div_ceil(5), case, |case| {
        *results.undone.lock().unwrap() += 1;
        results.tally.lock().unwrap().count(&case.expected);
    })
}

fn compare_vectors(
    arguments: &Arguments,
    vectors: Vec<Case>,
    results: &Results,
) -> Result<(), String> {
    let case = |number: usize| vectors[number].clone();
    compare(&arguments.program, vectors.len(), case, |case| {
        *results.vectors.lock().unwrap() += 1;
        results.tally.lock().unwrap().count(&case.expected);
    })
}

impl Results {
    fn print(&self, arguments: &Arguments, outcome: Result<(), String>) -> ExitCode {
        let kinds = *self.kinds.lock().unwrap();
        let vectors = *self.vectors.lock().unwrap();
        let cuts = *self.cuts.lock().unwrap();
        let undone = *self.undone.lock().unwrap();
        let passed = kinds.iter().sum::<usize>() + cuts + undone + vectors;
        if let Err(difference) = outcome {
            println!("{difference}");
            println!("{passed} passed, 1 failed");
            return ExitCode::from(1);
        }
        println!("jobs of seed {}:", arguments.seed);
        for (kind, count) in Kind::ALL.iter().zip(kinds) {
            println!("  {:<34}{count:>6}", kind.name());
        }
        println!("  {:<34}{cuts:>6}", "small units, cut at every position");
        println!("  {:<34}{undone:>6}", "lists of splits undone in reverse");
        println!("answers, of all printed lines (of a job at most the first 100):");
        print!("{}", self.tally.lock().unwrap().report(NUMBERS));
        if !arguments.vectors.is_empty() {
            println!("vectors: {vectors} passed");
        }
        println!("{passed} passed, 0 failed");
        ExitCode::SUCCESS
    }
}
