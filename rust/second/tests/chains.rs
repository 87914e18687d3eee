//! Order 4 of document 02, "Marker chains may change places": examples by hand.

use second::operations::chains::rearranged;
use second::operations::set_target;
use second::table::{read_content, Placed};
use second::{Refusal, MOST_BYTES};

/// A content of codes with canCopy and canDelete N. Each word is canReorder and the id of a
/// standalone code, or with `(` or `)` behind it of a pair's start or end.
fn content(list: &str) -> Vec<u8> {
    list.split_whitespace().flat_map(code).collect()
}

fn code(word: &str) -> Vec<u8> {
    let id = word[1..].trim_end_matches(['(', ')']).parse().expect("an id");
    let (mark, overlap) = match word.as_bytes() {
        [.., b'('] => (b"SC", b'Y'),
        [.., b')'] => (b"EC", b'Y'),
        _ => (b"PH", b'-'),
    };
    [mark.as_slice(), &[0, id, 0, 0, 0, 0, b'N', b'N', overlap, word.as_bytes()[0]]].concat()
}

fn read(list: &str) -> Vec<Placed> {
    read_content(&content(list)).expect("codes alone")
}

const OLD: &str = "N1 F2 N3 F4 N5";

/// Each new list with the old one: whether it is a rearrangement of its chains, and what set target
/// answers. By rule 8 an F or N has canDelete N, so 18 comes before 19 where one is gone.
const LISTS: [(&str, &str, bool, u16); 22] = [
    (OLD, OLD, true, 0),
    (OLD, "N1 F4 N5 F2 N3", true, 0),
    // the N before any F stay first
    (OLD, "F2 N3 F4 N5 N1", false, 19),
    (OLD, "F2 N3 N1 F4 N5", false, 19),
    (OLD, "F2 N1 N3 F4 N5", false, 19),
    // each chain in its own order
    ("F2 N3 N4", "F2 N4 N3", false, 19),
    ("N1 N2 F3", "N2 N1 F3", false, 19),
    (OLD, "N1 N3 F2 F4 N5", false, 19),
    // an N of another chain
    (OLD, "N1 F2 N5 F4 N3", false, 19),
    (OLD, "N1 F2 F4 N5 N3", false, 19),
    // an F that became N, and an N that became F
    (OLD, "N1 F2 N3 N4 N5", false, 18),
    (OLD, "N1 F2 F3 F4 N5", false, 18),
    ("F1 F2", "N1 F2", false, 18),
    // one chain more, one less, one twice
    (OLD, "N1 F2 N3 F4 N5 F6", false, 19),
    (OLD, "N1 F2 N3", false, 18),
    (OLD, "N1 F2 N3 F2 N3", false, 18),
    (OLD, "N1 F2 N3 F4 N5 F2 N3", false, 19),
    (OLD, "N1 F2 N3 F4 N4 N5", false, 19),
    ("", "", true, 0),
    ("", "F1", false, 19),
    // three chains, and codes with canReorder Y that stand anywhere
    ("F1 F2 N3 F4", "F4 F1 F2 N3", true, 0),
    ("Y6 F1 N2 Y7 F3", "F3 Y7 F1 Y6 N2", true, 0),
];

/// In a unit whose first part has an F, so that the second may begin with N.
fn number(old: &str, target: Option<&str>, new: &str) -> u16 {
    let target = target.map(|target| [b"TG\0\x01".to_vec(), content(target)].concat());
    let table = [
        b"UNYSG\0\0-I".to_vec(),
        content("F9"),
        b"SG\0\0-I".to_vec(),
        content(old),
        target.unwrap_or_default(),
        b"UE".to_vec(),
    ]
    .concat();
    let answer = set_target(&table, 2, b'T', &content(new), MOST_BYTES);
    answer.map_or_else(|refusal| refusal.number, |_| 0)
}

#[test]
fn lists_by_hand() {
    for (old, new, expected, refused) in LISTS {
        assert_eq!(rearranged(&read(old), &read(new)), expected, "{old} to {new}");
        assert_eq!(number(old, None, new), refused, "{old} to {new}");
    }
}

/// A rearrangement can be undone.
#[test]
fn both_ways() {
    for (old, new, expected, _) in LISTS {
        assert_eq!(rearranged(&read(new), &read(old)), expected, "{new} to {old}");
    }
}

/// The halves of a pair are two entries, and its marks count as when flattened.
#[test]
fn pairs_in_chains() {
    assert!(rearranged(&read("F1( N1) F2"), &read("F2 F1( N1)")));
    assert!(!rearranged(&read("F1( N2 N1)"), &read("F1( N1) N2")));
    assert!(!rearranged(&read("F1( N1)"), &read("F1( N1(")));
    assert_eq!(number("F1( N1) F2", None, "F2 F1( N1)"), 0);
    assert_eq!(number("F1( F2 N1)", None, "F2 N1) F1("), 7);
    let brackets = [b"PO\0\x01\0\0\0\0NNYF".as_slice(), b"PC\0\x01\0\0\0\0NNYN"].concat();
    assert!(rearranged(&read("F1( N1)"), &read_content(&brackets).expect("a pair")));
}

/// "of the old target, or of the part's source if there was none": the old target's chains count.
#[test]
fn the_old_target_decides() {
    assert_eq!(number("F1 N2 F3", Some("F1 F3 N2"), "F3 N2 F1"), 0);
    assert_eq!(number("F1 N2 F3", Some("F1 F3 N2"), "F1 N2 F3"), 19);
    assert_eq!(number("F1 N2 F3", Some(""), ""), 0);
    assert_eq!(number("F1 N2 F3", Some(""), "F1 N2 F3"), 19);
}

/// 18, 19, 15 and then the rules of the result: a new content that breaks them all, and one less
/// with each step.
#[test]
fn after_18_and_before_15() {
    let table = [b"UNYSG\0\0-I".as_slice(), &content("F1 N2 F3"), b"UE"].concat();
    let set = |new: &str, room| set_target(&table, 1, b'T', &content(new), room);
    let refused = |number| Err(Refusal { number, place: 0 });
    assert_eq!(set("N2 F1 Y4(", 0), refused(18));
    assert_eq!(set("N2 F1 F3 Y4(", 0), refused(19));
    assert_eq!(set("F3 F1 N2 Y4(", 0), refused(15));
    assert_eq!(set("F3 F1 N2 Y4(", MOST_BYTES), refused(7));
    let expected =
        [b"UNYSG\0\0-T".as_slice(), &content("F1 N2 F3"), b"TG\0\x01", &content("F3 F1 N2"), b"UE"]
            .concat();
    assert_eq!(set("F3 F1 N2", MOST_BYTES), Ok(expected));
}
