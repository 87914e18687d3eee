//! The command line.

use std::path::PathBuf;

use second::generate::{JOBS, SEED};

pub const USAGE: &str = "differential DESK_PROGRAM [--jobs N] [--seed S] [--vectors FILE]..\n\
    differential lines DESKJOB_PROGRAM [--jobs N] [--seed S]";

pub struct Arguments {
    pub program: PathBuf,
    /// The program answers lines of the line protocol.
    pub lines: bool,
    pub jobs: usize,
    pub seed: u64,
    pub vectors: Vec<PathBuf>,
}

pub fn read(words: impl Iterator<Item = String>) -> Result<Arguments, String> {
    let mut words = words.peekable();
    let lines = words.next_if(|word| word == "lines").is_some();
    let program = PathBuf::from(words.next().ok_or("no program named")?);
    let (jobs, seed, vectors) = (JOBS, SEED, Vec::new());
    let mut arguments = Arguments { program, lines, jobs, seed, vectors };
    while let Some(option) = words.next() {
        let value = words.next().ok_or(format!("{option} without a value"))?;
        match option.as_str() {
            "--jobs" => arguments.jobs = number(&value)?,
            "--seed" => arguments.seed = number(&value)?,
            "--vectors" if !lines => arguments.vectors.push(PathBuf::from(value)),
            _ => return Err(format!("unknown option {option}")),
        }
    }
    if arguments.jobs == 0 {
        return Err("with zero jobs nothing is compared".into());
    }
    if !arguments.program.is_file() {
        return Err(format!("no program at {}", arguments.program.display()));
    }
    Ok(arguments)
}

fn number<T: std::str::FromStr>(word: &str) -> Result<T, String> {
    word.parse().map_err(|_| format!("{word} is no number"))
}
