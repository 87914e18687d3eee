//! `differential lines` against programs that answer right, wrong or not at all. The one that
//! answers right is `answers`, which is the second implementation itself.

use std::fs::Permissions;
use std::os::unix::fs::PermissionsExt;
use std::path::Path;
use std::process::{Command, Output};

fn differential(program: &str, options: &[&str]) -> Output {
    let mut command = Command::new(env!("CARGO_BIN_EXE_differential"));
    command.args(["lines", program]).args(options).output().expect("differential runs")
}

fn printed(output: &Output) -> String {
    String::from_utf8_lossy(&output.stdout).into_owned()
}

#[test]
fn right_answers_pass() {
    let output = differential(env!("CARGO_BIN_EXE_answers"), &["--jobs", "500", "--seed", "3"]);
    let printed = printed(&output);
    assert!(output.status.success(), "{printed}");
    assert!(printed.ends_with(" passed, 0 failed\n"), "{printed}");
    for kind in
        ["valid units in any spelling", "contents of about 33 cells", "targets set and removed"]
    {
        assert!(printed.contains(kind), "{printed}");
    }
}

#[test]
fn wrong_and_missing_answers_fail() {
    for program in ["/bin/echo", "/bin/true"] {
        if !Path::new(program).is_file() {
            eprintln!("LEFT OUT: no {program} on this machine");
            continue;
        }
        let output = differential(program, &["--jobs", "500"]);
        let printed = printed(&output);
        assert_eq!(output.status.code(), Some(1), "{printed}");
        assert!(printed.starts_with("DIFFERENCE in XML job 0 of seed "), "{printed}");
        assert!(printed.ends_with("0 passed, 1 failed\n"), "{printed}");
    }
}

/// What `differential` prints of a program that is wrong here and there: `answers`, of which sed
/// changes the answers.
fn printed_of_wrong(name: &str, change: &str) -> String {
    let script = Path::new(env!("CARGO_TARGET_TMPDIR")).join(name);
    let answers = env!("CARGO_BIN_EXE_answers");
    std::fs::write(&script, format!("#!/bin/sh\n'{answers}' | sed '{change}'\n")).unwrap();
    std::fs::set_permissions(&script, Permissions::from_mode(0o755)).unwrap();
    let output = differential(script.to_str().unwrap(), &["--jobs", "100"]);
    let printed = printed(&output);
    assert_eq!(output.status.code(), Some(1), "{printed}");
    assert!(printed.ends_with(" passed, 1 failed\n"), "{printed}");
    printed
}

/// Another first cell for each sheet.
#[test]
fn wrong_sheets_fail() {
    let printed = printed_of_wrong("wrong_sheets", r"s/^\(OK [0-9]* \)2020/\12E20/");
    assert!(printed.contains("\nDIFFERENCE in review sheet "), "{printed}");
}

/// 11 where a call is not granted. The table and the request are shown.
#[test]
fn wrong_grants_fail() {
    let printed = printed_of_wrong("wrong_grants", "s/^NO 24 0$/NO 11 0/");
    let (_, difference) = printed.split_once("\nDIFFERENCE in grant job ").expect(&printed);
    assert!(difference.contains("\ngrantcall "), "{difference}");
    assert!(difference.contains("\n    0  UN "), "{difference}");
    let requests = ["SP", "JN", "ST", "RT", "RW"].map(|mark| format!("\n    0  {mark} "));
    assert!(requests.iter().any(|request| difference.contains(request)), "{difference}");
    assert!(difference.contains("\nexpected:\nNO 24 0\n"), "{difference}");
    assert!(difference.contains("\nthe program answers:\nNO 11 0\n"), "{difference}");
}

#[test]
fn what_cannot_be_compared_is_2() {
    for options in [["--jobs", "0"], ["--vectors", "file"], ["--jobs", "many"]] {
        let output = differential(env!("CARGO_BIN_EXE_answers"), &options);
        assert_eq!(output.status.code(), Some(2), "{options:?}");
    }
    assert_eq!(differential("no/such/program", &[]).status.code(), Some(2));
}
