//! Order 11 of document 02 on the second implementation itself: its own joins give what the
//! order's words say, and the lists are rich enough to show it.

use second::desk::desk;
use second::generate::splits_undone;
use second::operations::join;
use second::rejoin::{Split, Undoing};
use second::Refusal;

const SEED: u64 = 11;
const LISTS: u64 = 2000;

#[test]
fn lists_of_splits_are_undone() {
    let (mut several, mut turned, mut turned_by_several) = (0, 0, 0);
    for number in 0..LISTS {
        let list = splits_undone(SEED, number);
        assert_eq!(desk(&list.job()), list.printed(), "list {number} of seed {SEED}");
        let splits = list.steps().count();
        several += usize::from(splits > 1);
        if list.undone(0) != list.original() {
            turned += 1;
            turned_by_several += usize::from(splits > 1);
        }
    }
    println!(
        "{several} of several splits, {turned} with marks turned, {turned_by_several} of both"
    );
    assert!(several > 1000 && turned > 200 && turned_by_several > 150);
}

#[test]
fn one_byte_less_than_the_table_is_15() {
    for number in 0..LISTS {
        let list = splits_undone(SEED + 1, number);
        let (Split { part, .. }, given) = list.steps().last().expect("at least one split");
        let short = join(list.left(), part, given.len() - 1);
        assert_eq!(short, Err(Refusal { number: 15, place: 0 }), "list {number}");
        assert!(join(list.left(), part, given.len()).is_ok(), "list {number}");
    }
}

/// pc 5 around mrk 6, cut inside both: all four marks turn. Cut behind mrk 6: those of pc 5.
#[test]
fn the_marks_of_what_is_cut_turn() {
    let table = |form: &[u8; 8]| {
        let [po, pc, mo, mc] = [0, 2, 4, 6].map(|at| [form[at], form[at + 1]]);
        let fields = b"\0\x05\0\0\0\0YYYY";
        let (open, close) = ([&po[..], fields].concat(), [&pc[..], fields].concat());
        let note = [&mo[..], b"\0\x06-TX\0\x01a", &mc[..], b"\0\x06"].concat();
        [b"UNYSG\0\x01-I".to_vec(), open, note, b"TX\0\x01b".to_vec(), close, b"UE".to_vec()]
            .concat()
    };
    let undone = |source_cut: u16| {
        let mut list = Undoing::of(table(b"POPCMOMC"));
        assert!(list.add(Split { part: 1, source_cut, target_cut: 0, new_id: 2 }));
        list.undone(0)
    };
    assert_eq!(undone(2), table(b"SCECSMEM"));
    assert_eq!(undone(4), table(b"SCECMOMC"));
}
