//! The options `--role` and `--parts`.

use deskjob::grant::{taken, Given};
use xliff_desk::Role;

fn given(role: Role, positions: &[u8]) -> Option<Given> {
    Some(Given { role, positions: positions.to_vec() })
}

#[test]
fn options_are_taken_out_of_the_words() {
    let job = vec!["job.txt", "-"];
    assert_eq!(taken(&["job.txt", "-"]), Ok((None, job.clone())));
    let translator = given(Role::Translator, &[1, 3]);
    for words in [
        ["--role", "translator", "--parts", "1,3", "job.txt", "-"],
        ["--parts", "1,3", "--role", "translator", "job.txt", "-"],
        ["job.txt", "--parts", "1,3", "-", "--role", "translator"],
    ] {
        assert_eq!(taken(&words), Ok((translator.clone(), job.clone())));
    }
}

/// "a missing --parts means none"; a position twice is handed on.
#[test]
fn roles_and_positions() {
    let of = |words: &[&str]| taken(words).map(|(grant, _)| grant);
    assert_eq!(of(&["--role", "reviewer"]), Ok(given(Role::Reviewer, &[])));
    assert_eq!(of(&["--role", "engineer"]), Ok(given(Role::Engineer, &[])));
    let reviewer = ["--role", "reviewer", "--parts"];
    let with = |parts: &str| of(&[&reviewer[..], &[parts]].concat());
    assert_eq!(with("64"), Ok(given(Role::Reviewer, &[64])));
    assert_eq!(with("2,1,2"), Ok(given(Role::Reviewer, &[2, 1, 2])));
    assert_eq!(with("007"), Ok(given(Role::Reviewer, &[7])));
}

#[test]
fn mistakes_are_told_in_words() {
    let mistake = |words: &[&str]| taken(words).unwrap_err();
    for role in ["boss", "T", "Translator", ""] {
        let told = format!("\"{role}\" is no role: translator, reviewer or engineer");
        assert_eq!(mistake(&["--role", role, "job.txt"]), told);
    }
    for part in
        ["0", "65", "256", "257", "x", "", "+1", "-1", " 1", "1 ", "1.", "99999999999999999999"]
    {
        let told = format!("\"{part}\" is no position of a part: 1 to 64, as in --parts 1,3");
        assert_eq!(mistake(&["--role", "engineer", "--parts", part]), told);
        assert_eq!(mistake(&["--role", "engineer", "--parts", &format!("1,{part},2")]), told);
    }
    assert_eq!(mistake(&["--parts", "1", "job.txt"]), "--parts stands without --role");
    assert_eq!(mistake(&["--role"]), "behind --role must stand translator, reviewer or engineer");
    let nothing = "behind --parts must stand the positions of parts, as in --parts 1,3";
    assert_eq!(mistake(&["job.txt", "--parts"]), nothing);
    let twice = ["--role", "engineer", "--role", "engineer"];
    assert_eq!(mistake(&twice), "--role stands twice");
    assert_eq!(
        mistake(&["--role", "engineer", "--parts", "1", "--parts", "2"]),
        "--parts stands twice"
    );
    for option in ["--roles", "--role=engineer", "--", "--help"] {
        assert_eq!(mistake(&[option, "job.txt"]), format!("{option} is no option here"));
    }
}
