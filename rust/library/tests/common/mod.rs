//! An operation's answer and each byte of the lent output, compared with the second
//! implementation.

use second::operations::Outcome;
use xliff_desk::{Answer, Reason, Refusal};

/// The second implementation's refusal as the library tells it.
pub fn told(refusal: second::Refusal) -> Refusal {
    let reason = Reason::of_number(refusal.number as u8).expect("a number of document 01 or 02");
    Refusal { reason, place: refusal.place }
}

/// Compares one call with an output of this length, filled with what is no result: behind a
/// result, and where the call is refused, its bytes stay.
pub fn compare(
    call: impl FnOnce(&mut [u8]) -> Answer,
    outcome: Outcome,
    room: usize,
    context: impl Fn() -> String,
) {
    let before: Vec<u8> = (0..room).map(|at| at as u8 ^ 0xA5).collect();
    let mut out = before.clone();
    let answer = call(&mut out);
    let mut expected = before;
    let expected_answer = match outcome {
        Ok(result) => {
            expected[..result.len()].copy_from_slice(&result);
            Ok(result.len())
        }
        Err(refusal) => Err(told(refusal)),
    };
    assert_eq!(answer, expected_answer, "room {room}, {}", context());
    assert!(out == expected, "the output differs: room {room}, {}", context());
}
