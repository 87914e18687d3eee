//! Order 6 of document 02 at the bench: two suppliers share the unit of `examples/suppliers.txt`.

#[path = "shared/jobs.rs"]
mod jobs;

use deskjob::commands::{self, End, Shown};
use jobs::{job, with_requests, FIRST, SUPPLIERS, SUPPLIERS_REQUESTS};
use xliff_desk::{Grant, Role};

/// What the first supplier sees.
const SEEN: &str = r#"  UN Y
  SG 5 - T
  TX "Door "
  PH 1 0 0 N N - Y
  TX " opens."
  TG 2
  TX "Ovi "
  PH 1 0 0 N N - Y
  TX " aukeaa."
  SG 6 - I
  TX "Keep clear."
  UE
"#;

/// What its requests do.
const CHANGED: &str = r#"check: OK 121: accepted

set the target of part 1, state T, content of 33 bytes
OK 122: accepted
    UN Y
    SG 5 - T
    TX "Door "
    PH 1 0 0 N N - Y
    TX " opens."
    TG 2
    TX "Ovi "
    PH 1 0 0 N N - Y
  - TX " aukeaa."
  + TX " avautuu."
    SG 6 - R
    TX "Keep clear."
    TG 1
    TX "Pysy kaukana."
    UE

remove the target of part 2
NO 24 0: not granted: the role may not ask for this, or not on this part

split part 1 at source item 5 and target item 4, new id 7
NO 24 0: not granted: the role may not ask for this, or not on this part

the table:
  UN Y
  SG 5 - T
  TX "Door "
  PH 1 0 0 N N - Y
  TX " opens."
  TG 2
  TX "Ovi "
  PH 1 0 0 N N - Y
  TX " avautuu."
  SG 6 - R
  TX "Keep clear."
  TG 1
  TX "Pysy kaukana."
  UE
"#;

/// What the second supplier sees after the target of part 1 is removed.
const SEEN_AFTER_REMOVAL: &str = r#"  UN Y
  SG 5 - I
  TX "Door "
  PH 1 0 0 N N - Y
  TX " opens."
  SG 6 - R
  TX "Keep clear."
  TG 1
  TX "Pysy kaukana."
  UE
"#;

/// The first supplier sees no target of part 2, and the state there as I.
#[test]
fn a_supplier_sees_its_own_part() {
    assert_eq!(commands::view(&job(SUPPLIERS), FIRST), Shown::accepted(SEEN));
    // the second sees its own, an engineer all of it
    let second = Grant { role: Role::Reviewer, positions: &[2] };
    let seen = commands::view(&job(SUPPLIERS), second).text;
    assert!(seen.contains("SG 5 - I\n") && seen.contains("  TX \"Pysy kaukana.\"\n"), "{seen}");
    assert!(!seen.contains("Ovi"), "{seen}");
    let engineer = Grant { role: Role::Engineer, positions: &[] };
    let (all, table) = (commands::view(&job(SUPPLIERS), engineer), job(SUPPLIERS).unit);
    assert_eq!(all, commands::show(&table));
}

/// The first supplier changes its own target, and neither the other's nor the parts.
#[test]
fn a_supplier_changes_its_own_part() {
    let asked = with_requests(SUPPLIERS, SUPPLIERS_REQUESTS);
    assert_eq!(commands::run(&asked, Some(FIRST)), Shown::refused(CHANGED));
    // an engineer's grant allows all that is allowed without one
    let engineer = Grant { role: Role::Engineer, positions: &[] };
    assert_eq!(commands::run(&asked, Some(engineer)), commands::run(&asked, None));
    assert_eq!(commands::run(&asked, None).end, End::Accepted);
}

/// The requests of a view run without its grant; where one is refused there is no view.
#[test]
fn a_view_after_requests() {
    let removed = with_requests(SUPPLIERS, "RT 1\n");
    let second = Grant { role: Role::Translator, positions: &[2] };
    let seen = commands::view(&removed, second);
    assert_eq!(seen, Shown::accepted(SEEN_AFTER_REMOVAL));
    for refused in [with_requests(SUPPLIERS, "RT 3\n"), job("UN Y\nUE\n")] {
        let shown = commands::view(&refused, second);
        assert_eq!(shown, commands::xml(&refused));
        assert_eq!(shown.end, End::Refused);
    }
}
