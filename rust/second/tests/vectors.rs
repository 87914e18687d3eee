//! Every line of `vectors/jobs.txt`: a third opinion.

use second::desk::{desk, from_hexadecimal};

#[test]
fn desk_prints_what_the_vectors_expect() {
    let path = concat!(env!("CARGO_MANIFEST_DIR"), "/../../vectors/jobs.txt");
    let file = std::fs::read_to_string(path).expect("the file of vectors");
    let mut passed = 0;
    for (number, line) in file.lines().enumerate() {
        // The empty job leaves its word empty.
        let (job, expected) = line.split_once(' ').expect("two words a line");
        let job = from_hexadecimal(job).expect("hexadecimal");
        let expected = from_hexadecimal(expected).expect("hexadecimal");
        let printed = desk(&job);
        let shown =
            || notation::job(&job).iter().map(|l| format!("{}\n", l.text)).collect::<String>();
        assert!(
            printed == expected,
            "line {}:\n{}expected\n{}printed\n{}",
            number + 1,
            shown(),
            String::from_utf8_lossy(&expected),
            String::from_utf8_lossy(&printed)
        );
        passed += 1;
    }
    println!("{passed} vectors passed");
    assert!(passed > 0, "the vectors file is empty");
}
