//! "translators set or remove targets there, reviewers also rewrite there, engineers do everything
//! anywhere." "24, call not granted, after the table's check and before everything else."

use super::*;

/// Two segments, the second with a target in which a code of its own has the id 8.
const TWO: &[u8] = b"UNYSG\0\x05-ITX\0\x02upSG\0\x06-TTX\0\x02abTG\0\x02PH\0\x08\0\0\0\0YY-YUE";

const SET_1: &[u8] = b"ST\0\x01T\0\x05TX\0\x01x";
const REMOVE_2: &[u8] = b"RT\0\x02";

#[test]
fn translators_and_reviewers_set_and_remove_targets() {
    let set = b"UNYSG\0\x05-TTX\0\x02upTG\0\x01TX\0\x01x\
        SG\0\x06-TTX\0\x02abTG\0\x02PH\0\x08\0\0\0\0YY-YUE";
    let removed = b"UNYSG\0\x05-ITX\0\x02upSG\0\x06-ITX\0\x02abUE";
    for role in *b"TR" {
        assert_eq!(asked(role, &[1], TWO, SET_1, ROOM).unwrap(), set);
        assert_eq!(asked(role, &[2], TWO, SET_1, ROOM), refused(24, 0));
        assert_eq!(asked(role, &[], TWO, SET_1, ROOM), refused(24, 0));
        assert_eq!(asked(role, &[1, 2], TWO, REMOVE_2, ROOM).unwrap(), removed);
        assert_eq!(asked(role, &[1], TWO, REMOVE_2, ROOM), refused(24, 0));
    }
    assert_eq!(asked(b'E', &[], TWO, SET_1, ROOM).unwrap(), set);
    assert_eq!(asked(b'E', &[1], TWO, REMOVE_2, ROOM).unwrap(), removed);
    for role in *b"tre-XI" {
        assert_eq!(asked(role, &[1, 2], TWO, SET_1, ROOM), refused(24, 0));
        assert_eq!(asked(role, &[1, 2], TWO, REMOVE_2, ROOM), refused(24, 0));
    }
}

/// "A change may still be refused for an id used elsewhere": id 8 stands in a target that the
/// translator does not see.
#[test]
fn an_id_used_elsewhere() {
    let set = b"ST\0\x01T\0\x0CPH\0\x08\0\0\0\0YY-Y";
    assert!(!seen(b'T', &[1], TWO).unwrap().windows(2).any(|mark| mark == b"PH"));
    assert_eq!(asked(b'T', &[1], TWO, set, ROOM), refused(6, 0));
}

/// "24 is judged by membership": a part that the table lacks is 11 where its position is granted.
/// No position is above 255: part 257 is not part 1.
#[test]
fn parts_that_the_table_lacks() {
    let requests = |part: u16| {
        let number = part.to_be_bytes();
        [[b"ST", &number[..], b"T\0\0"].concat(), [b"RT", &number[..]].concat()]
    };
    for role in *b"TR" {
        for part in [0, 3, 200, 255u8] {
            for request in requests(part.into()) {
                assert_eq!(asked(role, &[1, 2], TWO, &request, ROOM), refused(24, 0));
                assert_eq!(asked(role, &[1, part], TWO, &request, ROOM), refused(11, 0));
            }
        }
        let every: Vec<u8> = (0..=255).collect();
        for request in [256, 257, 258, 65281, 65535].into_iter().flat_map(requests) {
            assert_eq!(asked(role, &every, TWO, &request, ROOM), refused(24, 0));
            assert_eq!(asked(b'E', &[], TWO, &request, ROOM), refused(11, 0));
        }
    }
}

/// Split and join are an engineer's alone.
#[test]
fn splits_and_joins_are_an_engineers() {
    let (split, join) = (b"SP\0\x01\0\x01\0\0\0\x09", b"JN\0\x01");
    for role in *b"TRXe" {
        assert_eq!(asked(role, &[1, 2], TWO, split, ROOM), refused(24, 0));
        assert_eq!(asked(role, &[1, 2], TWO, join, ROOM), refused(24, 0));
    }
    let halves = b"UNYSG\0\x05-ITX\0\x01uSG\0\x09-ITX\0\x01p\
        SG\0\x06-TTX\0\x02abTG\0\x02PH\0\x08\0\0\0\0YY-YUE";
    assert_eq!(asked(b'E', &[], TWO, split, ROOM).unwrap(), halves);
    let joined = b"UNYSG\0\x05-ITX\0\x04upabTG\0\x01PH\0\x08\0\0\0\0YY-YUE";
    assert_eq!(asked(b'E', &[], TWO, join, ROOM).unwrap(), joined);
}

/// Before 11, 12, 13, 2 of letters, 20 and 15; behind the table's check.
#[test]
fn before_everything_else_but_the_check() {
    let requests: [&[u8]; 6] = [
        b"SP\0\x09\0\0\0\0\0\0",
        b"JN\0\x09",
        b"ST\0\x09X\0\x01X",
        b"ST\0\x02?\0\0",
        b"RT\0\x01",
        b"RWX\0\0X",
    ];
    for request in requests {
        for room in [0, ROOM] {
            assert_eq!(asked(b'T', &[3], TWO, request, room), refused(24, 0));
            assert_eq!(asked(b'X', &[1, 2], TWO, request, room), refused(24, 0));
            assert_eq!(asked(b'T', &[3], b"UNYUE", request, room), refused(2, 3));
            assert_eq!(asked(b'X', &[], &[0; 8193], request, room), refused(1, 0));
        }
    }
    // granted, the call's own numbers come
    assert_eq!(asked(b'T', &[1], TWO, SET_1, 10), refused(15, 0));
    assert_eq!(asked(b'T', &[2], TWO, b"ST\0\x02?\0\0", 10), refused(2, 0));
    assert_eq!(asked(b'R', &[1], TWO, b"RT\0\x01", 10), refused(20, 0));
}

/// Annotation 7 stands in the source of part 1. In the targets, by rising order, it begins in
/// part 2 and ends in part 1.
fn annotated() -> Vec<u8> {
    [
        b"UNYSG\0\0-TMO\0\x07-TX\0\x01aMC\0\x07TG\0\x02EM\0\x07".as_slice(),
        b"SG\0\0-TTX\0\x01bTG\0\x01SM\0\x07-UE",
    ]
    .concat()
}

/// "within a reviewer's exactly if that side has a complete pair or annotation of that id and both
/// halves stand in granted parts."
#[test]
fn a_reviewer_rewrites_where_both_halves_are_granted() {
    let table = annotated();
    let rewritten = [
        b"UNYSG\0\0-TSM\0\x07-TX\0\x01aEM\0\x07TG\0\x02EM\0\x07".as_slice(),
        b"SG\0\0-TTX\0\x01bTG\0\x01SM\0\x07-UE",
    ]
    .concat();
    for positions in [&[1][..], &[1, 2]] {
        assert_eq!(asked(b'R', positions, &table, b"RWS\0\x07S", ROOM).unwrap(), rewritten);
        // "already so" is the rewrite's own
        assert_eq!(asked(b'R', positions, &table, b"RWS\0\x07P", ROOM), refused(20, 0));
    }
    assert_eq!(asked(b'R', &[2], &table, b"RWS\0\x07S", ROOM), refused(24, 0));
    // in the targets one half stands in part 2, the other in part 1
    for positions in [&[1][..], &[2], &[], &[0, 3]] {
        assert_eq!(asked(b'R', positions, &table, b"RWT\0\x07P", ROOM), refused(24, 0));
    }
    assert_eq!(asked(b'R', &[2, 1], &table, b"RWT\0\x07P", ROOM), refused(21, 0));
    assert_eq!(asked(b'T', &[1, 2], &table, b"RWS\0\x07S", ROOM), refused(24, 0));
    assert_eq!(asked(b'E', &[], &table, b"RWS\0\x07S", ROOM).unwrap(), rewritten);
}

/// "A reviewer's rewrite of a side letter that is neither S nor T, or of an id without complete
/// pair or annotation on that side, is 24; a wrong form letter on a granted one is 2."
#[test]
fn letters_and_ids_of_a_reviewers_rewrite() {
    let table = annotated();
    let answer = |role, request: &[u8]| asked(role, &[1, 2], &table, request, ROOM);
    for side in *b"st-PX\0" {
        let request = [b"RW".as_slice(), &[side], b"\0\x07S"].concat();
        assert_eq!(answer(b'R', &request), refused(24, 0));
        assert_eq!(answer(b'E', &request), refused(2, 0));
    }
    for form in *b"ps-TX\0" {
        let request = [b"RWS\0\x07".as_slice(), &[form]].concat();
        assert_eq!(answer(b'R', &request), refused(2, 0));
        assert_eq!(asked(b'R', &[2], &table, &request, ROOM), refused(24, 0));
    }
    for id in [0, 6, 8] {
        assert_eq!(answer(b'R', &[b'R', b'W', b'S', 0, id, b'S']), refused(24, 0));
        assert_eq!(answer(b'E', &[b'R', b'W', b'S', 0, id, b'S']), refused(20, 0));
    }
}

/// A target half whose other half waits for a target is no complete pair; nor is a standalone code.
#[test]
fn lone_halves_and_standalone_codes() {
    let (start, end) = (b"SC\0\x09\0\0\0\0YYYY", b"EC\0\x09\0\0\0\0YYYY");
    let code = b"PH\0\x08\0\0\0\0YY-Y";
    let table = [
        [b"UNYSG\0\0-T".as_slice(), start, code, b"TG\0\x01", start, code].concat(),
        [b"SG\0\0-T".as_slice(), end, b"UE"].concat(),
    ]
    .concat();
    for request in [b"RWT\0\x09P", b"RWT\0\x08P", b"RWS\0\x08P"] {
        assert_eq!(asked(b'R', &[1, 2], &table, request, ROOM), refused(24, 0));
        assert_eq!(asked(b'E', &[1, 2], &table, request, ROOM), refused(20, 0));
    }
    // in the source it is complete
    assert_eq!(asked(b'R', &[1, 2], &table, b"RWS\0\x09P", ROOM), refused(21, 0));
    assert_eq!(asked(b'R', &[1], &table, b"RWS\0\x09P", ROOM), refused(24, 0));
}
