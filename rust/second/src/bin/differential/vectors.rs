//! Jobs with their expected output from a file: two words in hexadecimal a line.

use std::path::{Path, PathBuf};

use second::desk::from_hexadecimal;

use crate::compare::Case;

/// The vectors of all files.
pub fn read_all(paths: &[PathBuf]) -> Result<Vec<Case>, String> {
    let mut cases = Vec::new();
    for path in paths {
        cases.extend(read(path)?);
    }
    Ok(cases)
}

fn read(path: &Path) -> Result<Vec<Case>, String> {
    let shown = path.display();
    let file = std::fs::read_to_string(path).map_err(|error| format!("{shown}: {error}"))?;
    let mut cases = Vec::new();
    for (number, line) in file.lines().enumerate() {
        let words = line.split_once(' ');
        let read = words.and_then(|(job, expected)| {
            Some((from_hexadecimal(job)?, from_hexadecimal(expected)?))
        });
        let name = format!("{shown}, line {}", number + 1);
        let (job, expected) = read.ok_or(format!("{name}: not two words in hexadecimal"))?;
        cases.push(Case { name, kind: None, job, expected });
    }
    if cases.is_empty() {
        return Err(format!("{shown} is empty"));
    }
    Ok(cases)
}
