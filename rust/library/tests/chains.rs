//! Order 4 of document 02, "Marker chains may change places": set target with whole chains moved,
//! and 19.

use xliff_desk::{set_target, Reason, Refusal, State};

const REFUSED: Result<Vec<u8>, Refusal> =
    Err(Refusal { reason: Reason::FixedCodesChanged, place: 0 });

/// What the output holds before a call.
const NO_RESULT: u8 = 0xA5;

/// Standalone codes with canCopy and canDelete N, of these letters (canReorder) and ids.
fn codes(list: &[(u8, u8)]) -> Vec<u8> {
    let code = |(letter, id)| [b"PH\0".as_slice(), &[id], b"\0\0\0\0NN-", &[letter]].concat();
    list.iter().copied().flat_map(code).collect()
}

/// A unit of two segments; the first has an F, so that the second may begin with N.
fn unit(state: u8, source: &[(u8, u8)], target: &[u8]) -> Vec<u8> {
    let first = [b"SG\0\0-I".to_vec(), codes(&[(b'F', 9)])].concat();
    let second = [b"SG\0\0-".to_vec(), vec![state], codes(source), target.to_vec()].concat();
    [b"UNY".to_vec(), first, second, b"UE".to_vec()].concat()
}

/// The target set to these codes where the source has those: the result, and behind it (where
/// refused, from the first byte on) the output is as it was.
fn set(source: &[(u8, u8)], new: &[(u8, u8)]) -> Result<Vec<u8>, Refusal> {
    let mut out = [NO_RESULT; 200];
    let answer = set_target(&unit(b'I', source, b""), 2, State::Translated, &codes(new), &mut out);
    let (result, behind) = out.split_at(answer.unwrap_or(0));
    assert!(behind.iter().all(|&byte| byte == NO_RESULT));
    answer.map(|_| result.to_vec())
}

/// The N before any F, and two chains.
const OLD: [(u8, u8); 5] = [(b'N', 1), (b'F', 2), (b'N', 3), (b'F', 4), (b'N', 5)];

/// These codes of `OLD`, by their ids.
fn ids(ids: [u8; 5]) -> [(u8, u8); 5] {
    ids.map(|id| OLD[usize::from(id) - 1])
}

#[test]
fn whole_chains_change_places() {
    for new in [ids([1, 2, 3, 4, 5]), ids([1, 4, 5, 2, 3])] {
        let target = [b"TG\0\x02".to_vec(), codes(&new)].concat();
        assert_eq!(set(&OLD, &new), Ok(unit(b'T', &OLD, &target)));
    }
}

#[test]
fn parts_of_chains_do_not() {
    // the N before any F behind an F, an N in another chain, an N before its F
    for new in [[2, 3, 4, 5, 1], [2, 3, 1, 4, 5], [1, 2, 5, 4, 3], [1, 2, 4, 5, 3], [1, 3, 2, 4, 5]]
    {
        assert_eq!(set(&OLD, &ids(new)), REFUSED, "{new:?}");
    }
    let (first, second, third) = ((b'F', 2), (b'N', 3), (b'N', 4));
    assert_eq!(set(&[first, second, third], &[first, third, second]), REFUSED);
}

/// A chain more, and one twice; a code that is gone, or has the other letter, is 18.
#[test]
fn other_chains() {
    assert_eq!(set(&OLD, &[&OLD[..], &[(b'F', 6)]].concat()), REFUSED);
    assert_eq!(set(&OLD, &[&OLD[..], &OLD[1..3]].concat()), REFUSED);
    let mut changed = OLD;
    changed[3].0 = b'N';
    for lost in [&OLD[..3], &changed] {
        assert_eq!(set(&OLD, lost).unwrap_err().reason, Reason::CodeLost);
    }
}
