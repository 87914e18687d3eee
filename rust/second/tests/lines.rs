//! Every line of `vectors/after-06.txt`, `vectors/chains.txt` and `vectors/sheets.txt`, answered by
//! the second implementation: a third opinion beside the proved desk.

use std::collections::BTreeMap;

use second::lines::answer;

/// How many lines of each operation the file has; each must be answered as it says.
fn answered(name: &str) -> BTreeMap<String, usize> {
    let path = format!("{}/../../vectors/{name}", env!("CARGO_MANIFEST_DIR"));
    let file = std::fs::read_to_string(path).expect("the file of vectors");
    let mut lines = BTreeMap::new();
    for line in file.lines() {
        let (asked, expected) = line.split_once(" = ").expect("a line with its answer");
        assert_eq!(answer(asked).as_deref(), Some(expected), "{asked}");
        let operation = asked.split(' ').next().unwrap_or_default();
        *lines.entry(operation.to_string()).or_default() += 1;
    }
    println!("{lines:?}");
    lines
}

#[test]
fn the_vectors_are_answered() {
    let lines = answered("after-06.txt");
    for (operation, least) in [
        ("check", 25),
        ("job", 25),
        ("call", 25),
        ("xmlread", 25),
        ("xmlwrite", 25),
        ("sheet", 25),
        ("view", 264),
        ("grantcall", 600),
    ] {
        assert!(lines.get(operation) >= Some(&least), "too few lines of {operation}");
    }
}

#[test]
fn set_targets_of_order_4_are_answered() {
    assert!(answered("chains.txt").get("call") >= Some(&250));
}

#[test]
fn sheets_of_order_5_are_answered() {
    assert!(answered("sheets.txt").get("sheet") >= Some(&336));
}
