//! Compares a program that answers lines of the line protocol (`deskjob lines`) with the second
//! implementation: XML jobs of order 1 of document 02, and a small text with all its neighbours;
//! review sheets of order 5, and every marker about a row's end; views and calls with a grant of
//! order 6, and every role, call and set of positions of a small unit.

use std::io::{BufRead, BufReader, BufWriter, Write};
use std::process::{Child, ChildStdin, Command, ExitCode, Stdio};

use second::generate::{grant_job, sheet_edges, sheet_job, small_grants, xml_job, xml_neighbours};
use second::generate::{About, LineJob, LineKind};
use second::tally::Tally;

use crate::arguments::Arguments;

/// Every number of the desk program, and 24.
const GRANT_NUMBERS: [u16; 23] =
    [1, 2, 3, 4, 5, 6, 7, 8, 9, 10, 11, 12, 13, 14, 15, 16, 17, 18, 19, 20, 21, 23, 24];

/// Jobs of one sort.
struct Jobs<Job> {
    name: &'static str,
    seeded: Vec<Job>,
    /// Jobs that are the same for every seed, and what they are.
    listed: Vec<Job>,
    list: &'static str,
    /// The numbers that can be answered.
    numbers: &'static [u16],
}

/// Prints the result and gives the exit status.
pub fn compare(arguments: &Arguments) -> ExitCode {
    let mut passed = 0;
    if let Err(difference) = compare_all(arguments, &mut passed) {
        println!("{difference}\n{passed} passed, 1 failed");
        return ExitCode::from(1);
    }
    println!("{passed} passed, 0 failed");
    ExitCode::SUCCESS
}

/// One sort after the other, so that only one is held at a time.
fn compare_all(arguments: &Arguments, passed: &mut usize) -> Result<(), String> {
    let (seed, numbers) = (arguments.seed, 0..arguments.jobs as u64);
    let xml = Jobs {
        name: "XML job",
        seeded: numbers.clone().map(|number| xml_job(seed, number)).collect(),
        listed: xml_neighbours(),
        list: "a small text, one byte changed",
        numbers: &[1, 2, 3, 4, 5, 6, 7, 8, 9, 10, 15, 22],
    };
    xml.compare(arguments, passed)?;
    let sheets = Jobs {
        name: "review sheet",
        seeded: numbers.clone().map(|number| sheet_job(seed, number)).collect(),
        listed: sheet_edges(),
        list: "every marker about a row's end",
        numbers: &[1, 2, 3, 4, 5, 6, 7, 8, 9, 10, 15],
    };
    sheets.compare(arguments, passed)?;
    let grants = Jobs {
        name: "grant job",
        seeded: numbers.map(|number| grant_job(seed, number)).collect(),
        listed: small_grants(),
        list: "every grant of a small unit",
        numbers: &GRANT_NUMBERS,
    };
    grants.compare(arguments, passed)
}

impl<Job: LineJob + Sync> Jobs<Job> {
    fn all(&self) -> impl Iterator<Item = &Job> {
        self.seeded.iter().chain(&self.listed)
    }

    /// All jobs in one run of the program. The first difference is given back as text.
    fn compare(&self, arguments: &Arguments, passed: &mut usize) -> Result<(), String> {
        let mut tally = Tally::default();
        self.ask(arguments, |expected| {
            tally.count(expected.as_bytes());
            *passed += 1;
        })?;
        println!("{}s of seed {}:", self.name, arguments.seed);
        for kind in Job::Kind::ALL {
            let count = self.seeded.iter().filter(|job| job.kind() == *kind).count();
            println!("  {:<34}{count:>6}", kind.name());
        }
        println!("  {:<34}{:>6}", self.list, self.listed.len());
        print!("answers:\n{}", tally.report(self.numbers.iter().copied()));
        Ok(())
    }

    /// Sends the jobs as lines and tells `passed` of each answer that agrees; the first that does
    /// not is given back as text.
    fn ask(&self, arguments: &Arguments, mut passed: impl FnMut(&str)) -> Result<(), String> {
        let mut child = start(arguments)?;
        let stdin = child.stdin.take().expect("a piped input");
        let stdout = child.stdout.take().expect("a piped output");
        let difference = std::thread::scope(|scope| {
            // Written beside the reading, so that neither waits for the other.
            scope.spawn(move || self.send(stdin));
            let mut answers = BufReader::new(stdout).lines();
            let difference = self.all().enumerate().find_map(|(number, job)| {
                let (expected, answer) = (job.answer(), answers.next().and_then(Result::ok));
                if answer.as_ref() == Some(&expected) {
                    passed(&expected);
                    return None;
                }
                let name = self.name(arguments, number, job);
                Some(shown(&name, job, &expected, answer.as_deref().unwrap_or("(no answer)")))
            });
            if difference.is_some() {
                // What it still would answer is not read, so that it might wait for ever.
                child.kill().ok();
            }
            difference
        });
        child.wait().map_err(|error| format!("the program cannot be waited for: {error}"))?;
        difference.map_or(Ok(()), Err)
    }

    /// A program that stops early closes its input; what it did not answer is found by its answers.
    fn send(&self, stdin: ChildStdin) {
        let mut stdin = BufWriter::new(stdin);
        for job in self.all() {
            if writeln!(stdin, "{}", job.line()).is_err() {
                return;
            }
        }
        stdin.flush().ok();
    }

    fn name(&self, arguments: &Arguments, number: usize, job: &Job) -> String {
        match number.checked_sub(self.seeded.len()) {
            None => {
                let (name, seed, kind) = (self.name, arguments.seed, job.kind().name());
                format!("{name} {number} of seed {seed} ({kind})")
            }
            Some(place) => format!("{}, number {place}", self.list),
        }
    }
}

fn start(arguments: &Arguments) -> Result<Child, String> {
    let mut program = Command::new(&arguments.program);
    program.arg("lines").stdin(Stdio::piped()).stdout(Stdio::piped());
    program.spawn().map_err(|error| format!("the program does not run: {error}"))
}

fn shown(name: &str, job: &impl LineJob, expected: &str, answer: &str) -> String {
    let about = match job.about() {
        About::Xml(text) => format!("{}\n", text.escape_ascii()),
        About::Table { table, request } => {
            let lines = [notation::records(table), notation::requests(request)].concat();
            lines.iter().map(|line| format!("{:>5}  {}\n", line.offset, line.text)).collect()
        }
    };
    let line = job.line();
    format!(
        "DIFFERENCE in {name}\n{line}\n{about}expected:\n{expected}\nthe program answers:\n{answer}"
    )
}
