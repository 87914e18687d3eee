//! "The view is the table without the targets of parts outside the grant, the state there shown as
//! I, orders kept."

use super::*;

/// Two suppliers' segments with an ignorable between them; the orders are not the positions.
const SHARED: &[u8] = b"UNYSG\0\x05-TTX\0\x02upTG\0\x03TX\0\x03auf\
    IG\0\x06TX\0\x01 TG\0\x01TX\0\x01_SG\0\x07YFTX\0\x04downTG\0\x02TX\0\x02abUE";

#[test]
fn each_supplier_sees_its_own_targets() {
    let first =
        b"UNYSG\0\x05-TTX\0\x02upTG\0\x03TX\0\x03aufIG\0\x06TX\0\x01 SG\0\x07YITX\0\x04downUE";
    let third =
        b"UNYSG\0\x05-ITX\0\x02upIG\0\x06TX\0\x01 SG\0\x07YFTX\0\x04downTG\0\x02TX\0\x02abUE";
    let second =
        b"UNYSG\0\x05-ITX\0\x02upIG\0\x06TX\0\x01 TG\0\x01TX\0\x01_SG\0\x07YITX\0\x04downUE";
    let none = b"UNYSG\0\x05-ITX\0\x02upIG\0\x06TX\0\x01 SG\0\x07YITX\0\x04downUE";
    for role in *b"TR" {
        assert_eq!(seen(role, &[1], SHARED).unwrap(), first);
        assert_eq!(seen(role, &[2], SHARED).unwrap(), second);
        assert_eq!(seen(role, &[3], SHARED).unwrap(), third);
        assert_eq!(seen(role, &[], SHARED).unwrap(), none);
        assert_eq!(seen(role, &[1, 2, 3], SHARED).unwrap(), SHARED);
    }
}

/// "a position twice, 0 or beyond the table has no effect", and their sequence has none.
#[test]
fn positions_of_no_effect() {
    let alone = seen(b'T', &[3], SHARED);
    for positions in [&[3, 3][..], &[0, 3], &[3, 4, 255], &[3, 0, 3, 0, 200]] {
        assert_eq!(seen(b'T', positions, SHARED), alone);
    }
    assert_eq!(seen(b'T', &[0, 4, 255], SHARED), seen(b'T', &[], SHARED));
    assert_eq!(seen(b'R', &[3, 2, 1], SHARED).unwrap(), SHARED);
}

/// "An engineer's grant counts as every part, so that view is the whole table."
#[test]
fn an_engineer_sees_the_table() {
    for positions in [&[][..], &[1], &[0, 9], &[1, 2, 3]] {
        assert_eq!(seen(b'E', positions, SHARED).unwrap(), SHARED);
    }
}

/// "any other letter grants nothing", a small one too.
#[test]
fn other_letters_see_no_target() {
    let none = seen(b'T', &[], SHARED).unwrap();
    for role in (0..=255).filter(|role| !b"TRE".contains(role)) {
        assert_eq!(seen(role, &[1, 2, 3], SHARED).unwrap(), none);
    }
}

/// A state outside the grant is shown as I, with a target or without; an empty target is one.
#[test]
fn states_are_hidden_with_and_without_target() {
    let table = b"UNNSG\0\0-FSG\0\0NRTG\0\x01SG\0\0-TUE";
    assert_eq!(seen(b'T', &[3], table).unwrap(), b"UNNSG\0\0-ISG\0\0NISG\0\0-TUE");
    assert_eq!(seen(b'T', &[2], table).unwrap(), b"UNNSG\0\0-ISG\0\0NRTG\0\x01SG\0\0-IUE");
}

/// "the view need not pass the check": pair 9 is part 1's, and its translation ends in part 2.
#[test]
fn a_view_that_is_no_table() {
    let half = |mark: &str| [mark.as_bytes(), b"\0\x09\0\0\0\0YYYY"].concat();
    let [start, end] = ["SC", "EC"].map(half);
    let first = [b"SG\0\0-T".as_slice(), &start, &end, b"TG\0\x01", &start].concat();
    let table = [b"UNY".as_slice(), &first, b"SG\0\0-TTG\0\x02", &end, b"UE"].concat();
    let expected = [b"UNY".as_slice(), &first, b"SG\0\0-IUE"].concat();
    let view = seen(b'T', &[1], &table).unwrap();
    assert_eq!(view, expected);
    // the start in the target of part 1, behind its `TG`
    let place = 3 + 6 + 12 + 12 + 4;
    assert_eq!(second::rules::check(&view), Err(Refusal { number: 7, place }));
}

/// "View: check, 15": an output as long as the view is enough, also where the table is longer.
#[test]
fn outputs_of_a_view() {
    let grant = Grant { role: b'T', positions: &[1] };
    let length = SHARED.len() - b"TG\0\x01TX\0\x01_".len() - b"TG\0\x02TX\0\x02ab".len();
    let expected = seen(b'T', &[1], SHARED);
    for room in [length, length + 1, SHARED.len() - 1, SHARED.len(), usize::MAX] {
        assert_eq!(view(&grant, SHARED, room), expected);
    }
    for room in [0, 1, length - 1] {
        assert_eq!(view(&grant, SHARED, room), refused(15, 0));
    }
}

/// The table is checked first, with the check's place, whoever asks.
#[test]
fn a_refused_table_is_not_shown() {
    for role in *b"TREX" {
        for room in [0, ROOM] {
            let refusal = |table: &[u8]| view(&Grant { role, positions: &[1] }, table, room);
            assert_eq!(refusal(b"UNYUE"), refused(2, 3));
            assert_eq!(refusal(b"UNYIG\0\x05IG\0\x05UE"), refused(6, 7));
            // in a target that would be hidden too
            assert_eq!(refusal(b"UNYIG\0\0IG\0\0TG\0\x03UE"), refused(5, 11));
            assert_eq!(refusal(&[b' '; 8193]), refused(1, 0));
        }
    }
}
