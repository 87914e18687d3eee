//! `deskjob`: jobs, units in XML and lines, run on the proved desk.

use std::io::{ErrorKind, Read, Write};
use std::process::ExitCode;

use deskjob::commands::{self, End, Shown};
use deskjob::grant::{self, Given};
use deskjob::job::{Job, Unit};

const USAGE: &str = "\
deskjob run [GRANT] JOB [REQUESTS]  run the requests, and show each answer and what it changed
deskjob xml JOB [REQUESTS]          run the requests, and write the table after them as XML
deskjob sheet JOB [REQUESTS]        run the requests, and print the review sheet of the table after
                                    them
deskjob view GRANT JOB [REQUESTS]   run the requests, without the grant, and show what it lets see
                                    of the table after them
deskjob check JOB                   check the unit; of a refused one, show what is blamed
deskjob show JOB|HEX                show the unit's table, or one that the desk printed in
                                    hexadecimal
deskjob lines                       answer lines from standard input (line protocol:
                                    vectors/README.md)
deskjob --help                      show this text

JOB is a file with a job in notation, or with a unit in XML (its first byte that is no blank is <);
REQUESTS is a file with requests in notation, which come behind those of the job. - is standard
input. README.md has examples.

GRANT is --role translator, --role reviewer or --role engineer, and --parts with the positions of
the granted parts, 1 to 64, commas between them: --role translator --parts 1,3. Without --parts no
part is granted; an engineer needs none. A request outside the grant is refused by 24.

Exit status: 0 if nothing is refused; 1 if the unit or a request is refused (standard output shows
it; xml then writes no XML, sheet no sheet, view no view); 2 if the command, its options, a file,
the notation or a line cannot be read (standard error says why).
";

fn main() -> ExitCode {
    let words: Vec<String> =
        std::env::args_os().skip(1).map(|word| word.to_string_lossy().into_owned()).collect();
    let words: Vec<&str> = words.iter().map(String::as_str).collect();
    let Shown { text, end } = command(&words);
    let end = match print(&text) {
        Ok(()) => end,
        Err(error) => End::Failed(format!("standard output: {error}")),
    };
    match end {
        End::Accepted => ExitCode::SUCCESS,
        End::Refused => ExitCode::from(1),
        End::Failed(why) => {
            // Where nobody reads it, the exit status says it.
            let _ = writeln!(std::io::stderr(), "deskjob: {}", why.trim_end());
            ExitCode::from(2)
        }
    }
}

fn command(words: &[&str]) -> Shown {
    match words {
        ["--help" | "-h" | "help"] => Shown::accepted(USAGE),
        [name @ ("run" | "view"), rest @ ..] => match grant::taken(rest) {
            Ok((grant, rest)) => with_grant(name, grant, &rest).unwrap_or_else(|| unknown(words)),
            Err(why) => Shown::failed(why),
        },
        ["xml", job, requests @ ..] if requests.len() < 2 => with_job(job, requests, commands::xml),
        ["sheet", job, requests @ ..] if requests.len() < 2 => {
            with_job(job, requests, commands::sheet)
        }
        ["check", job] => with_job(job, &[], commands::check),
        ["show", digits_or_job] => show(digits_or_job),
        ["lines"] => match read("-") {
            Ok(input) => commands::lines(&input),
            Err(why) => Shown::failed(why),
        },
        [] => Shown::failed(format!("no command\n\n{USAGE}")),
        _ => unknown(words),
    }
}

fn unknown(words: &[&str]) -> Shown {
    Shown::failed(format!("no command of this form: {}\n\n{USAGE}", words.join(" ")))
}

/// `run` and `view`, with the grant of their options; nothing if the other words do not fit.
fn with_grant(name: &str, grant: Option<Given>, words: &[&str]) -> Option<Shown> {
    let grant = grant.as_ref().map(Given::grant);
    let [job, requests @ ..] = words else { return None };
    if requests.len() > 1 {
        return None;
    }
    Some(match (name, grant) {
        ("run", _) => with_job(job, requests, |job| commands::run(job, grant)),
        (_, Some(grant)) => with_job(job, requests, |job| commands::view(job, grant)),
        (_, None) => Shown::failed("view needs --role translator, reviewer or engineer"),
    })
}

/// The command's outcome for the job of a file, and the requests of another if one is named.
fn with_job(path: &str, requests: &[&str], command: impl FnOnce(&Job) -> Shown) -> Shown {
    match job(path, requests) {
        Ok(job) => command(&job),
        Err(why) => Shown::failed(why),
    }
}

fn job(path: &str, requests: &[&str]) -> Result<Job, String> {
    if requests.contains(&"-") && path == "-" {
        return Err("standard input cannot be both the job and the requests".into());
    }
    let mut job = Job::read(read(path)?).map_err(|why| format!("{path}: {why}"))?;
    for path in requests {
        job.add_requests(read(path)?).map_err(|why| format!("{path}: {why}"))?;
    }
    Ok(job)
}

/// A table in hexadecimal, or else a job.
fn show(digits_or_job: &str) -> Shown {
    match notation::from_hexadecimal(digits_or_job.trim()) {
        Some(table) => commands::show(&Unit::Table(table)),
        None => match job(digits_or_job, &[]) {
            Ok(job) => commands::show(&job.unit),
            Err(why) => Shown::failed(format!("neither bytes in hexadecimal nor a job: {why}")),
        },
    }
}

/// The bytes of a file, - for standard input.
fn read(path: &str) -> Result<Vec<u8>, String> {
    let mut bytes = Vec::new();
    let read = match path {
        "-" => std::io::stdin().read_to_end(&mut bytes).map(|_| bytes),
        _ => std::fs::read(path),
    };
    read.map_err(|error| format!("{path}: {error}"))
}

/// Prints all at once. A reader that has gone (`deskjob run JOB | head -1`) is no failure.
fn print(text: &str) -> std::io::Result<()> {
    let mut out = std::io::stdout().lock();
    match out.write_all(text.as_bytes()).and_then(|()| out.flush()) {
        Err(error) if error.kind() == ErrorKind::BrokenPipe => Ok(()),
        written => written,
    }
}
