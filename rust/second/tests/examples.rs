//! The printed job of document 01 and its bench examples (a) to (k), and examples of order 2 of
//! document 02, "Accents stay with their letters".

use second::desk::desk;
use second::operations::{join, split};
use second::rules::check;
use second::{Refusal, MOST_BYTES};

/// `UN Y`, `SG` 1 - I, `TX` "A. B", `UE`.
const A_B: &[u8] = b"UNYSG\0\x01-ITX\0\x04A. BUE";

const REFUSED_13: Result<Vec<u8>, Refusal> = Err(Refusal { number: 13, place: 0 });

fn cut(source_cut: u16) -> Result<Vec<u8>, Refusal> {
    split(A_B, 1, source_cut, 0, 2, MOST_BYTES)
}

#[test]
fn the_printed_job() {
    let job = [A_B, b"SP\0\x01\0\x02\0\0\0\x02"].concat();
    let printed = "OK 29\n554E59534700012D4954580002412E534700022D495458000220425545\n";
    assert_eq!(A_B.len(), 19);
    assert_eq!(desk(&job), printed.as_bytes());
    // With another mark the request is unreadable.
    let job = [A_B, b"XP\0\x01\0\x02\0\0\0\x02"].concat();
    let unreadable = "NO 2 19\n554E59534700012D4954580004412E20425545\n";
    assert_eq!(desk(&job), unreadable.as_bytes());
}

#[test]
fn a_and_b_cuts_that_pass() {
    assert_eq!(cut(1).unwrap(), b"UNYSG\0\x01-ITX\0\x01ASG\0\x02-ITX\0\x03. BUE");
    assert_eq!(cut(3).unwrap(), b"UNYSG\0\x01-ITX\0\x03A. SG\0\x02-ITX\0\x01BUE");
}

#[test]
fn c_and_d_cuts_outside_give_13() {
    assert_eq!(cut(0), REFUSED_13);
    assert_eq!(cut(4), REFUSED_13);
}

#[test]
fn e_joining_restores_the_table() {
    assert_eq!(join(&cut(1).unwrap(), 1, MOST_BYTES).unwrap(), A_B);
}

#[test]
fn f_and_g_orders_in_a_join() {
    let crossed = b"UNYSG\0\0-ITG\0\x02SG\0\0-ITG\0\x01UE";
    assert_eq!(join(crossed, 1, MOST_BYTES), Err(Refusal { number: 16, place: 0 }));
    let rising = b"UNYSG\0\0-ITG\0\x01SG\0\0-ITG\0\x02UE";
    assert_eq!(join(rising, 1, MOST_BYTES).unwrap(), b"UNYSG\0\0-ITG\0\x01UE");
}

#[test]
fn h_a_cut_inside_pc_gives_start_and_end() {
    let table = b"UNYSG\0\x01-IPO\0\x05\0\0\0\0YYYYTX\0\x02abPC\0\x05\0\0\0\0YYYYUE";
    let result =
        b"UNYSG\0\x01-ISC\0\x05\0\0\0\0YYYYTX\0\x01aSG\0\x02-ITX\0\x01bEC\0\x05\0\0\0\0YYYYUE";
    assert_eq!(split(table, 1, 2, 0, 2, MOST_BYTES).unwrap(), result);
    // One byte too few is 15.
    let short = split(table, 1, 2, 0, 2, result.len() - 1);
    assert_eq!(short, Err(Refusal { number: 15, place: 0 }));
}

#[test]
fn i_one_target_with_order_2_joins_to_order_1() {
    let table = b"UNYSG\0\0-ISG\0\0-ITG\0\x02UE";
    assert_eq!(join(table, 1, MOST_BYTES).unwrap(), b"UNYSG\0\0-ITG\0\x01UE");
}

#[test]
fn j_no_parts_give_2() {
    assert_eq!(check(b"UNYUE"), Err(Refusal { number: 2, place: 3 }));
}

#[test]
fn k_a_new_id_of_a_pair_gives_14() {
    let table = b"UNYSG\0\x01-IPO\0\x05\0\0\0\0YYYYTX\0\x02abPC\0\x05\0\0\0\0YYYYUE";
    let refused = split(table, 1, 2, 0, 5, MOST_BYTES);
    assert_eq!(refused, Err(Refusal { number: 14, place: 0 }));
}

const REFUSED_23: Result<Vec<u8>, Refusal> = Err(Refusal { number: 23, place: 0 });

fn text(text: &str) -> Vec<u8> {
    [b"TX".as_slice(), &(text.len() as u16).to_be_bytes(), text.as_bytes()].concat()
}

/// A segment of this source, cut behind so many items.
fn source_cut(source: &[u8], cut: u16) -> Result<Vec<u8>, Refusal> {
    split(&[b"UNYSG\0\x01-I", source, b"UE"].concat(), 1, cut, 0, 2, MOST_BYTES)
}

/// A segment of the source "ab", cut between the two, and of this target, cut behind so many items.
fn target_cut(target: &[u8], cut: u16) -> Result<Vec<u8>, Refusal> {
    let table = [b"UNYSG\0\x01-ITX\0\x02abTG\0\x01", target, b"UE"].concat();
    split(&table, 1, 1, cut, 2, MOST_BYTES)
}

#[test]
fn an_accent_stays_with_its_letter() {
    let accented = text("e\u{301}\u{302}x");
    // between e and its accent, and between the two accents
    assert_eq!(source_cut(&accented, 1), REFUSED_23);
    assert_eq!(source_cut(&accented, 2), REFUSED_23);
    let halves = b"UNYSG\0\x01-ITX\0\x05e\xCC\x81\xCC\x82SG\0\x02-ITX\0\x01xUE";
    assert_eq!(source_cut(&accented, 3).unwrap(), halves);
}

/// "U+0300 to U+036F".
#[test]
fn the_first_and_the_last_accent() {
    for accented in ["a\u{300}", "a\u{36F}"].map(text) {
        assert_eq!(source_cut(&accented, 1), REFUSED_23);
        assert_eq!(target_cut(&accented, 1), REFUSED_23);
    }
    for other in ["a\u{2FF}", "a\u{370}"].map(text) {
        assert!(source_cut(&other, 1).is_ok());
        assert!(target_cut(&other, 1).is_ok());
    }
}

/// Only behind "a code point of text".
#[test]
fn an_accent_behind_no_text_may_be_cut_off() {
    let accent = text("\u{301}");
    for marker in [b"CP\0\0\0\x01".as_slice(), b"PH\0\x07\0\0\0\0YY-Y", b"IS\0\x07\0\0\0\0YYYY"] {
        let content = [marker, &accent].concat();
        assert!(source_cut(&content, 1).is_ok());
        assert!(target_cut(&content, 1).is_ok());
    }
    // inside a pair: at its start, and behind its end
    let [open, close] =
        [b"PO", b"PC"].map(|mark| [mark, b"\0\x05\0\0\0\0YYYY".as_slice()].concat());
    let pair = [open, accent.clone(), close, accent.clone()].concat();
    assert!(source_cut(&pair, 1).is_ok());
    assert!(source_cut(&pair, 3).is_ok());
    // a letter in front of a marker: the item before the cut is the marker
    let behind = [text("e"), b"PH\0\x07\0\0\0\0YY-Y".to_vec(), accent].concat();
    assert!(source_cut(&behind, 1).is_ok());
    assert!(source_cut(&behind, 2).is_ok());
}

#[test]
fn the_target_is_looked_at_too() {
    let accented = text("\u{301}e\u{301}");
    // where the content begins and where it ends nothing is parted
    assert!(target_cut(&accented, 0).is_ok());
    assert!(target_cut(&accented, 1).is_ok());
    assert_eq!(target_cut(&accented, 2), REFUSED_23);
    assert!(target_cut(&accented, 3).is_ok());
    assert!(target_cut(&[], 0).is_ok());
    assert_eq!(target_cut(&accented, 4), REFUSED_13);
}

/// "23, in split after 13 and before 14": id 1 is taken, and the output has no room.
#[test]
fn after_13_and_before_14() {
    let table = b"UNYSG\0\x01-ITX\0\x03e\xCC\x81UE";
    assert_eq!(split(table, 1, 1, 0, 1, 0), REFUSED_23);
    // without target the target cut must be 0
    assert_eq!(split(table, 1, 1, 1, 1, 0), REFUSED_13);
    let closed = b"UNYSG\0\x01NITX\0\x03e\xCC\x81UE";
    assert_eq!(split(closed, 1, 1, 0, 1, 0), Err(Refusal { number: 12, place: 0 }));
}
