//! Answers lines of the line protocol (vectors/README.md) from standard input by the second
//! implementation, one a line, as `deskjob lines` does by the proved desk. Ends with 2 at a line
//! that is not of the protocol.

use std::io::{BufRead, Write};
use std::process::ExitCode;

fn main() -> ExitCode {
    let mut out = std::io::BufWriter::new(std::io::stdout().lock());
    for line in std::io::stdin().lock().lines() {
        let answer = line.ok().and_then(|line| second::lines::answer(&line));
        let Some(answer) = answer else {
            eprintln!("not a line of the protocol");
            return ExitCode::from(2);
        };
        if writeln!(out, "{answer}").is_err() {
            break;
        }
    }
    ExitCode::SUCCESS
}
