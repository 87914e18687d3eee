//! Sessions at the bench.

use deskjob::commands::{self, End, Shown};
use deskjob::job::{Job, Unit};

const JOB: &str = r#"UN Y
SG 1 - I
TX "A. B"
UE
SP 1 2 0 2   # behind "A."
SP 1 2 0 2
"#;

fn job(text: &str) -> Job {
    Job::read(text.into()).unwrap()
}

fn run(text: &str) -> Shown {
    commands::run(&job(text), None)
}

fn check(text: &str) -> Shown {
    commands::check(&job(text))
}

#[test]
fn the_printed_job_runs() {
    let shown = run(JOB);
    let expected = r#"check: OK 19: accepted

split part 1 at source item 2 and target item 0, new id 2
OK 29: accepted
    UN Y
    SG 1 - I
  - TX "A. B"
  + TX "A."
  + SG 2 - I
  + TX " B"
    UE

split part 1 at source item 2 and target item 0, new id 2
NO 13 0: source cut not in 1 to items - 1, or target cut above the target's items

the table:
  UN Y
  SG 1 - I
  TX "A."
  SG 2 - I
  TX " B"
  UE
"#;
    assert_eq!(shown.text, expected);
    // the second request is refused
    assert_eq!(shown.end, End::Refused);
}

#[test]
fn a_printed_table_is_shown() {
    let shown = commands::show(&Unit::Table(b"UNYSG\0\x01-ITX\0\x02A.UE".to_vec()));
    assert_eq!(shown, Shown::accepted("  UN Y\n  SG 1 - I\n  TX \"A.\"\n  UE\n"));
    // a refused one too, as it is
    assert_eq!(commands::show(&job("UN Y\nUE\nRT 1").unit), Shown::accepted("  UN Y\n  UE\n"));
}

#[test]
fn a_refused_table_is_told() {
    let expected =
        "NO 2 3: unknown mark, cut record, bad field or letter, or a record out of sequence\n    \
         UN Y\n  > UE\n";
    assert_eq!(check("UN Y\nUE\n"), Shown::refused(expected));
    assert_eq!(run("UN Y\nUE\nRT 1"), Shown::refused(["check: ", expected].concat()));
}

/// A missing record is blamed at the table's end.
#[test]
fn the_end_of_a_table_is_marked() {
    let table = "UN Y\nSG 1 - I\n";
    let marked = "    UN Y\n    SG 1 - I\n  > (the table ends here)\n";
    for shown in [check(table), run(table)] {
        let (answer, lines) = shown.text.split_once('\n').unwrap();
        assert!(answer.contains("NO 2 9: "), "{answer}");
        assert_eq!((lines, &shown.end), (marked, &End::Refused));
    }
    assert!(check("").text.ends_with("\n  > (the table ends here)\n"));
}

#[test]
fn an_accepted_table_is_told() {
    let accepted = Shown::accepted("OK 11: accepted\n");
    assert_eq!(check("UN Y\nSG 1 - I\nUE\n"), accepted);
}

#[test]
fn the_content_of_set_target_stands_below_it() {
    let shown = run("UN Y\nSG 0 - I\nTX \"a\"\nUE\nST 1 T\n  TX \"\\u{e9}\"\nRT 1\n");
    let text = shown.text;
    assert!(text.contains("  + TG 1\n  + TX \"é\"\n"), "{text}");
    assert!(text.contains("remove the target of part 1\nOK 16: accepted\n"), "{text}");
    assert_eq!(shown.end, End::Accepted);
}

#[test]
fn mistakes_in_the_notation_are_told() {
    let mistake = Job::read(b"UN Y\nXX 1\n".to_vec()).unwrap_err();
    assert_eq!(mistake, "line 2, column 1: XX is neither a record nor a request");
    assert_eq!(Job::read(b"UN \xFF\n".to_vec()).unwrap_err(), "not a text in UTF-8");
}

/// Requests of a second file come behind those of the job.
#[test]
fn requests_stand_in_a_file_of_their_own() {
    let (table, requests) = JOB.split_once("SP").unwrap();
    let requests = ["SP", requests].concat();
    let mut given = job(table);
    given.add_requests(requests.clone().into()).unwrap();
    assert_eq!(given, job(JOB));
    given.add_requests(requests.into()).unwrap();
    assert_eq!(given.requests.len(), 4);
    let mistake = given.add_requests(table.into()).unwrap_err();
    assert_eq!(mistake, "line 1, column 1: UN stands behind the table");
}
