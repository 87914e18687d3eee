//! The program itself: exit statuses, and where it prints what.

use std::io::Write;
use std::process::{Command, Output, Stdio};

const ACCEPTED: &str = "UN Y\nSG 1 - I\nUE\n";
const REFUSED: &str = "UN Y\nUE\n";
const UNIT: &str = "<unit id=\"1\"><segment id=\"1\"><source/></segment></unit>\n";

macro_rules! example {
    ($name:literal) => {
        concat!(env!("CARGO_MANIFEST_DIR"), "/examples/", $name)
    };
}

fn start(words: &[&str]) -> std::process::Child {
    let mut program = Command::new(env!("CARGO_BIN_EXE_deskjob"));
    program.args(words).stdin(Stdio::piped()).stdout(Stdio::piped()).stderr(Stdio::piped());
    program.spawn().unwrap()
}

fn deskjob(words: &[&str], input: &str) -> Output {
    let mut child = start(words);
    // A usage error ends it before it reads.
    let _ = child.stdin.take().unwrap().write_all(input.as_bytes());
    child.wait_with_output().unwrap()
}

/// The exit status; with 2 it says why on standard error alone, else prints to standard output.
fn status(words: &[&str], input: &str) -> i32 {
    let Output { status, stdout, stderr } = deskjob(words, input);
    let status = status.code().expect("an exit status");
    assert_eq!((stdout.is_empty(), stderr.is_empty()), (status == 2, status != 2), "{words:?}");
    status
}

#[test]
fn accepted_is_0_and_refused_is_1() {
    assert_eq!(status(&["check", "-"], ACCEPTED), 0);
    assert_eq!(status(&["check", "-"], REFUSED), 1);
    assert_eq!(status(&["run", "-"], ACCEPTED), 0);
    assert_eq!(status(&["run", "-"], REFUSED), 1);
    assert_eq!(status(&["run", "-"], &[ACCEPTED, "RT 1\n"].concat()), 1);
    assert_eq!(status(&["run", example!("accent.txt")], ""), 1);
    assert_eq!(status(&["check", example!("accent.txt")], ""), 0);
    assert_eq!(status(&["show", "5545"], ""), 0);
    assert_eq!(status(&["lines"], "check 554E59534700012D495545\n"), 0);
    assert_eq!(status(&["lines"], "xmlwrite 200 554E59534700012D495545\n"), 0);
    assert_eq!(status(&["lines"], "sheet 80 554E59534700012D495545\n"), 0);
    assert_eq!(status(&["sheet", "-"], ACCEPTED), 0);
    assert_eq!(status(&["sheet", "-"], REFUSED), 1);
    assert_eq!(status(&["sheet", example!("review.txt")], ""), 0);
    // a refusal is an answer like others
    assert_eq!(status(&["lines"], "check -\n"), 0);
}

#[test]
fn units_in_xml_are_0_and_1_too() {
    for command in ["check", "run", "show", "xml", "sheet"] {
        assert_eq!(status(&[command, "-"], UNIT), 0, "{command}");
        assert_eq!(status(&[command, "-"], "<unit id=\"1\"/>"), 1, "{command}");
        assert_eq!(status(&[command, "-"], "<unit id=\"1\""), 1, "{command}");
        assert_eq!(status(&[command, example!("door.xml")], ""), 0, "{command}");
        assert_eq!(status(&[command, example!("door-broken.xml")], ""), 1, "{command}");
    }
    assert_eq!(status(&["xml", "-"], ACCEPTED), 0);
    assert_eq!(status(&["show", example!("door.txt")], ""), 0);
    // three requests, the first refused
    let requests = example!("door-requests.txt");
    for command in ["run", "xml", "sheet"] {
        assert_eq!(status(&[command, example!("door.xml"), requests], ""), 1);
        assert_eq!(status(&[command, example!("door.xml"), "-"], "ST 1 I\n"), 1);
        assert_eq!(status(&[command, "-", "/dev/null"], UNIT), 0);
    }
    assert_eq!(status(&["run", "-", example!("door-requests.txt")], UNIT), 1);
}

/// `run` with a grant, and `view`.
#[test]
fn grants_are_0_and_1_too() {
    let (unit, requests) = (example!("suppliers.txt"), example!("suppliers-requests.txt"));
    let first = ["--role", "translator", "--parts", "1"];
    let with = |words: &[&'static str]| [words, &first].concat();
    assert_eq!(status(&with(&["view", unit]), ""), 0);
    assert_eq!(status(&with(&["run", unit]), ""), 0);
    assert_eq!(status(&with(&["run", unit, requests]), ""), 1);
    assert_eq!(status(&with(&["run", unit, "-"]), "ST 1 T\n  PH 1 0 0 N N - Y\n"), 0);
    assert_eq!(status(&["run", "--role", "engineer", unit, requests], ""), 0);
    assert_eq!(status(&["run", "--role", "reviewer", unit, "-"], "RT 1\n"), 1);
    for command in ["run", "view"] {
        assert_eq!(status(&with(&[command, "-"]), ACCEPTED), 0, "{command}");
        assert_eq!(status(&with(&[command, "-"]), REFUSED), 1, "{command}");
        assert_eq!(status(&with(&[command, "-"]), UNIT), 0, "{command}");
        assert_eq!(status(&with(&[command, example!("door-broken.xml")]), ""), 1, "{command}");
    }
    // the requests of a view run without its grant
    assert_eq!(status(&with(&["view", unit, requests]), ""), 0);
    assert_eq!(status(&with(&["view", unit, "-"]), "RT 3\n"), 1);
    assert_eq!(status(&["lines"], "view T 01 11 554E59534700012D495545\n"), 0);
    assert_eq!(status(&["lines"], "grantcall X - 0 554E59534700012D495545 52540001\n"), 0);
}

/// Mistakes in the options are told in one line.
#[test]
fn mistaken_options_are_2() {
    let said = |words: &[&str]| {
        assert_eq!(status(words, ACCEPTED), 2, "{words:?}");
        String::from_utf8(deskjob(words, ACCEPTED).stderr).unwrap()
    };
    let needed = "deskjob: view needs --role translator, reviewer or engineer\n";
    assert_eq!(said(&["view", "-"]), needed);
    let no_role = "deskjob: \"boss\" is no role: translator, reviewer or engineer\n";
    assert_eq!(said(&["run", "--role", "boss", "-"]), no_role);
    assert_eq!(said(&["view", "--parts", "1", "-"]), "deskjob: --parts stands without --role\n");
    assert_eq!(said(&["run", "--part", "1", "-"]), "deskjob: --part is no option here\n");
    // no job, too many files, and options of another command
    for words in [
        &["view", "--role", "engineer"][..],
        &["run", "--role", "engineer", "-", "-", "-"],
        &["view", "--role", "engineer", "-", "-", "-"],
        &["sheet", "--role", "engineer", "-"],
        &["check", "--role", "engineer", "-"],
    ] {
        let said = said(words);
        let told = format!("deskjob: no command of this form: {}\n", words.join(" "));
        assert!(said.starts_with(&told), "{said}");
    }
}

#[test]
fn xml_is_written_with_a_line_feed() {
    let Output { stdout, .. } = deskjob(&["xml", "-"], UNIT);
    let written = "<unit id=\"1\" canResegment=\"yes\"><segment id=\"1\" state=\"initial\">\
                   <source></source></segment></unit>\n";
    assert_eq!(stdout, written.as_bytes());
}

/// The rows as they are, and no line behind them.
#[test]
fn a_sheet_is_its_rows() {
    let row = "  1     1 I                                                                    \n";
    for input in [ACCEPTED, UNIT] {
        assert_eq!(deskjob(&["sheet", "-"], input).stdout, row.as_bytes());
    }
}

#[test]
fn what_cannot_be_read_is_2() {
    assert_eq!(status(&[], ""), 2);
    assert_eq!(status(&["walk", "-"], ACCEPTED), 2);
    assert_eq!(status(&["run"], ACCEPTED), 2);
    assert_eq!(status(&["run", "-", "-"], ACCEPTED), 2);
    assert_eq!(status(&["run", "-", "-", "-"], ACCEPTED), 2);
    assert_eq!(status(&["sheet"], ACCEPTED), 2);
    assert_eq!(status(&["sheet", "-", "-"], ACCEPTED), 2);
    assert_eq!(status(&["check", "-", example!("door-requests.txt")], UNIT), 2);
    // records behind the unit, in either form
    assert_eq!(status(&["run", "-", example!("door.txt")], ACCEPTED), 2);
    assert_eq!(status(&["run", "-", example!("door.xml")], ACCEPTED), 2);
    assert_eq!(status(&["run", "/there/is/no/such/file"], ""), 2);
    assert_eq!(status(&["run", "-"], "XX"), 2);
    assert_eq!(status(&["check", "-"], "XX"), 2);
    assert_eq!(status(&["show", "5"], ""), 2);
    assert_eq!(status(&["lines"], "chock -\n"), 2);
    assert_eq!(status(&["lines", "-"], ""), 2);
}

/// The answers before a bad line are printed, and the line is named.
#[test]
fn a_bad_line_ends_lines() {
    let Output { status, stdout, stderr } = deskjob(&["lines"], "check -\njob\n");
    assert_eq!(status.code(), Some(2));
    assert_eq!(stdout, b"NO 2 0\n");
    assert!(String::from_utf8(stderr).unwrap().contains("line 2: "));
}

#[test]
fn help_goes_to_standard_output() {
    for word in ["--help", "-h", "help"] {
        let Output { status, stdout, stderr } = deskjob(&[word], "");
        assert_eq!((status.code(), stderr.is_empty()), (Some(0), true));
        let help = String::from_utf8(stdout).unwrap();
        for said in ["run", "xml", "sheet", "view", "check", "show", "lines", "--help"] {
            let said = format!("deskjob {said} ");
            assert!(help.contains(&said), "{said} is missing in: {help}");
        }
        for said in ["Exit status", "--role", "--parts", "translator", "reviewer", "engineer"] {
            assert!(help.contains(said), "{said} is missing in: {help}");
        }
    }
}

/// Mistakes name their file.
#[test]
fn the_file_is_named() {
    let said = |words: &[&str], input: &str| {
        String::from_utf8(deskjob(words, input).stderr).unwrap().trim_end().to_string()
    };
    let mistake = "line 1, column 1: XX is neither a record nor a request";
    assert_eq!(said(&["run", "-"], "XX"), format!("deskjob: -: {mistake}"));
    assert_eq!(said(&["xml", example!("door.xml"), "-"], "XX"), format!("deskjob: -: {mistake}"));
    let missing = said(&["show", "55g"], "");
    let expected = "deskjob: neither bytes in hexadecimal nor a job: 55g: ";
    assert!(missing.starts_with(expected), "{missing}");
}

/// As `deskjob run JOB | head -1`, whose reader may be gone before anything is written.
#[test]
fn a_reader_that_is_gone_is_no_failure() {
    for (input, expected) in [(ACCEPTED, 0), (REFUSED, 1)] {
        let mut child = start(&["run", "-"]);
        drop(child.stdout.take());
        child.stdin.take().unwrap().write_all(input.as_bytes()).unwrap();
        let Output { status, stderr, .. } = child.wait_with_output().unwrap();
        assert_eq!((status.code(), stderr.as_slice()), (Some(expected), b"".as_slice()));
    }
}
