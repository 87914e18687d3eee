//! The line protocol.

use deskjob::commands::{self, End};
use deskjob::lines::answer;

/// `UN Y`, `SG` 1 - I, `TX` "A. B", `UE`.
const A_B: &str = "554E59534700012D4954580004412E20425545";

/// Every line of the vectors, answered as `deskjob lines` answers it.
#[test]
fn the_vectors_are_answered() {
    for (name, least) in [("after-06.txt", 1014), ("chains.txt", 250), ("sheets.txt", 336)] {
        vectors_are_answered(name, least);
    }
}

fn vectors_are_answered(name: &str, least: usize) {
    let path = format!("{}/../../vectors/{name}", env!("CARGO_MANIFEST_DIR"));
    let file = std::fs::read_to_string(path).unwrap();
    let (mut passed, mut failed) = (0, 0);
    for line in file.lines() {
        let (asked, expected) = line.split_once(" = ").expect("a line with its answer");
        if answer(asked).as_deref() == Ok(expected) {
            passed += 1;
        } else {
            println!("{line}\nis answered {:?}", answer(asked));
            failed += 1;
        }
    }
    assert_eq!(failed, 0, "{name}: {failed} lines are answered otherwise, {passed} as expected");
    assert!(passed >= least, "{name}: only {passed} lines");
}

/// The printed job of document 01, as a job and as a call.
#[test]
fn the_printed_job() {
    let split = "554E59534700012D4954580002412E534700022D495458000220425545";
    let request = "53500001000200000002";
    let call = |room: usize| answer(&format!("call {room} {A_B} {request}"));
    assert_eq!(call(29), Ok(format!("OK 29 {split}")));
    assert_eq!(call(28), Ok("NO 15 0".into()));
    assert_eq!(call(0), Ok("NO 15 0".into()));
    assert_eq!(answer(&format!("check {A_B}")), Ok("OK 19".into()));
    assert_eq!(answer("check 554E595545"), Ok("NO 2 3".into()));
    assert_eq!(answer("check -"), Ok("NO 2 0".into()));
    let printed: String =
        format!("OK 29\n{split}\n").bytes().map(|byte| format!("{byte:02X}")).collect();
    assert_eq!(answer(&format!("job {A_B}{request}")), Ok(format!("TEXT {printed}")));
}

/// A unit in XML and its table.
#[test]
fn xml_is_read_and_written() {
    let xml: String = concat!(
        r#"<unit id="1" canResegment="yes"><segment id="1" state="initial">"#,
        "<source>A. B</source></segment></unit>"
    )
    .bytes()
    .map(|byte| format!("{byte:02X}"))
    .collect();
    assert_eq!(answer(&format!("xmlread 19 {xml}")), Ok(format!("OK 19 {A_B}")));
    assert_eq!(answer(&format!("xmlread 18 {xml}")), Ok("NO 15 0".into()));
    assert_eq!(answer("xmlread 19 -"), Ok("NO 22 0".into()));
    let length = xml.len() / 2;
    assert_eq!(answer(&format!("xmlwrite {length} {A_B}")), Ok(format!("OK {length} {xml}")));
    assert_eq!(answer(&format!("xmlwrite {} {A_B}", length - 1)), Ok("NO 15 0".into()));
    assert_eq!(answer("xmlwrite 0 554E595545"), Ok("NO 2 3".into()));
}

/// The review sheet of a unit, of one row.
#[test]
fn a_sheet_is_asked_for() {
    let row = "  1     1 I A. B                                                               \n";
    let row: String = row.bytes().map(|byte| format!("{byte:02X}")).collect();
    assert_eq!(answer(&format!("sheet 80 {A_B}")), Ok(format!("OK 80 {row}")));
    assert_eq!(answer(&format!("sheet 100 {A_B}")), Ok(format!("OK 80 {row}")));
    assert_eq!(answer(&format!("sheet 79 {A_B}")), Ok("NO 15 0".into()));
    assert_eq!(answer("sheet 0 554E595545"), Ok("NO 2 3".into()));
}

/// `UN Y`, `SG` 1 - T, `TG` 1, `UE`.
const TARGET: &str = "554E59534700012D54544700015545";

/// The same with its target hidden.
const HIDDEN: &str = "554E59534700012D495545";

#[test]
fn views_are_asked_for() {
    for (role, positions) in [("T", "01"), ("R", "02010103"), ("E", "-"), ("E", "02")] {
        let asked = format!("view {role} {positions} 15 {TARGET}");
        assert_eq!(answer(&asked), Ok(format!("OK 15 {TARGET}")), "{asked}");
    }
    for (role, positions) in [("T", "-"), ("R", "0002"), ("X", "01"), ("e", "01"), ("-", "01")] {
        let asked = |room| format!("view {role} {positions} {room} {TARGET}");
        assert_eq!(answer(&asked(11)), Ok(format!("OK 11 {HIDDEN}")), "{}", asked(11));
        assert_eq!(answer(&asked(10)), Ok("NO 15 0".into()));
    }
    assert_eq!(answer("view X - 0 554E595545"), Ok("NO 2 3".into()));
}

/// `RT` 1, which gives the table above; 24 also with no output and where the part is missing.
#[test]
fn calls_with_a_grant() {
    let asked = |role: &str, positions: &str, room: usize| {
        answer(&format!("grantcall {role} {positions} {room} {TARGET} 52540001"))
    };
    assert_eq!(asked("T", "01", 11), Ok(format!("OK 11 {HIDDEN}")));
    assert_eq!(asked("R", "0201", 100), Ok(format!("OK 11 {HIDDEN}")));
    assert_eq!(asked("E", "-", 11), Ok(format!("OK 11 {HIDDEN}")));
    assert_eq!(asked("T", "01", 10), Ok("NO 15 0".into()));
    for (role, positions) in [("T", "02"), ("R", "-"), ("X", "01"), ("t", "01")] {
        assert_eq!(asked(role, positions, 0), Ok("NO 24 0".into()));
    }
    let missing = |positions: &str| format!("grantcall T {positions} 9 {TARGET} 52540002");
    assert_eq!(answer(&missing("01")), Ok("NO 24 0".into()));
    assert_eq!(answer(&missing("02")), Ok("NO 11 0".into()));
    assert_eq!(answer("grantcall X - 0 554E595545 52540001"), Ok("NO 2 3".into()));
}

/// Unknown marks, requests cut short, bytes behind a request; of a refused table too.
#[test]
fn unreadable_requests_are_bad() {
    for table in [A_B, "554E595545", "-"] {
        for request in ["-", "4A", "4A4E00", "4A4E000100", "58580001", "5354000154000254"] {
            for operation in ["call", "grantcall E -", "grantcall X 01"] {
                let asked = format!("{operation} 100 {table} {request}");
                assert_eq!(answer(&asked), Ok("BAD".into()), "{asked}");
            }
        }
    }
}

const NOT_OF_THE_PROTOCOL: [&str; 46] = [
    "",
    "# check",
    "load -",
    "sheet 10",
    "sheet -",
    "sheet - -",
    "sheet 10 - -",
    "xmlread 10",
    "xmlread - -",
    "xmlread 10 - -",
    "xmlwrite x -",
    "list=- check -",
    "Check -",
    "check",
    "check ",
    "check - -",
    "check  -",
    " check -",
    "check 5",
    "check 4g",
    "check 4e",
    "check 0x4E",
    "job",
    "call 10 -",
    "call 10 - - -",
    "call x - -",
    "call +1 - -",
    "call - - -",
    "call 99999999999999999999 - -",
    "call 9999999999999999999 - -",
    "view T 01 10",
    "view T 01 10 - -",
    "view T 1 10 -",
    "view T 0a 10 -",
    "view T 01 x -",
    "view TR 01 10 -",
    "view é 01 10 -",
    "view  01 10 -",
    "grantcall T 01 10 -",
    "grantcall T 01 10 - - -",
    "grantcall TT 01 10 - -",
    "grantcall T 01,02 10 - -",
    "grantcall T 01 - - -",
    "editcall T 01 0 10 - -",
    "check - = NO 2 0",
    "check - =",
];

#[test]
fn lines_that_are_not_of_the_protocol() {
    for line in NOT_OF_THE_PROTOCOL {
        assert!(answer(line).is_err(), "{line} is answered {:?}", answer(line));
    }
}

/// The lines before it are answered, those behind it are not.
#[test]
fn the_first_bad_line_is_named() {
    let shown = commands::lines(b"check -\ncheck zz\ncheck -\n");
    assert_eq!(shown.text, "NO 2 0\n");
    let End::Failed(why) = shown.end else { panic!("{:?}", shown.end) };
    assert!(why.starts_with("line 2: "), "{why}");
    assert!(matches!(commands::lines(b"check -\n\n").end, End::Failed(_)));
    assert!(matches!(commands::lines(b"check \xFF\n").end, End::Failed(_)));
    // the last line feed may be missing
    assert_eq!(commands::lines(b"check -"), commands::lines(b"check -\n"));
    assert_eq!(commands::lines(b"").end, End::Accepted);
}
