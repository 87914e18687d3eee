//! Runs the desk program on each job and compares what it prints.

use std::io::Write;
use std::path::Path;
use std::process::{Command, Stdio};
use std::sync::atomic::{AtomicBool, AtomicUsize, Ordering};
use std::sync::Mutex;

use second::desk::{hexadecimal, job_of};
use second::generate::Kind;

const THREADS: usize = 2;

/// One job, with a name to find it again and what must be printed for it.
#[derive(Clone)]
pub struct Case {
    pub name: String,
    /// The kind of a generated job.
    pub kind: Option<Kind>,
    pub job: Vec<u8>,
    pub expected: Vec<u8>,
}

/// Compares `count` cases on two threads and tells `passed` of each that agrees. The first
/// difference is given back as text.
pub fn compare(
    program: &Path,
    count: usize,
    case: impl Fn(usize) -> Case + Sync,
    passed: impl Fn(&Case) + Sync,
) -> Result<(), String> {
    let next = AtomicUsize::new(0);
    let stop = AtomicBool::new(false);
    let differences: Mutex<Vec<(usize, String)>> = Mutex::new(Vec::new());
    std::thread::scope(|scope| {
        for _ in 0..THREADS {
            scope.spawn(|| loop {
                let number = next.fetch_add(1, Ordering::SeqCst);
                if number >= count || stop.load(Ordering::SeqCst) {
                    break;
                }
                let case = case(number);
                match difference(program, &case) {
                    None => passed(&case),
                    Some(text) => {
                        stop.store(true, Ordering::SeqCst);
                        differences.lock().unwrap().push((number, text));
                    }
                }
            });
        }
    });
    // Numbers are handed out in their order, so the lowest found is the first.
    let first = differences.into_inner().unwrap().into_iter().min();
    first.map_or(Ok(()), |(_, text)| Err(text))
}

fn difference(program: &Path, case: &Case) -> Option<String> {
    let printed = match run(program, &case.job) {
        Ok(printed) if printed == case.expected => return None,
        Ok(printed) => String::from_utf8_lossy(&printed).into_owned(),
        Err(failure) => format!("({failure})\n"),
    };
    Some(format!(
        "DIFFERENCE in {}\njob in hexadecimal:\n{}\njob in notation:\n{}expected:\n{}printed by the program:\n{printed}",
        case.name,
        hexadecimal(&case.job),
        in_notation(&case.job),
        String::from_utf8_lossy(&case.expected),
    ))
}

/// A line for each record and request with its offset.
fn in_notation(input: &[u8]) -> String {
    let job = job_of(input);
    let mut lines = notation::job(job);
    if job.len() < input.len() {
        let text = format!("({} bytes not read)", input.len() - job.len());
        lines.push(notation::Line { offset: job.len(), text });
    }
    lines.iter().map(|line| format!("{:>5}  {}\n", line.offset, line.text)).collect()
}

/// What the program prints for the job. It may stop reading early, so a failed write is none
/// of ours; to fail to run and to die by a signal are failures.
fn run(program: &Path, job: &[u8]) -> Result<Vec<u8>, String> {
    let mut child = Command::new(program)
        .stdin(Stdio::piped())
        .stdout(Stdio::piped())
        .stderr(Stdio::piped())
        .spawn()
        .map_err(|error| format!("the program does not run: {error}"))?;
    let mut stdin = child.stdin.take().expect("a piped input");
    let output = std::thread::scope(|scope| {
        // Written beside the reading, so that neither waits for the other.
        scope.spawn(move || stdin.write_all(job));
        child.wait_with_output()
    });
    let output = output.map_err(|error| format!("the output cannot be read: {error}"))?;
    if output.status.code().is_none() {
        let said = String::from_utf8_lossy(&output.stderr).into_owned();
        return Err(format!("the program died: {} {said}", output.status));
    }
    Ok(output.stdout)
}
