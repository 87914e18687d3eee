//! "**Rewrite** (side S or T, id, form P for pc or mrk, form S for start and end)."

use super::{hand_out, Outcome};
use crate::record::{Inline, Mark};
use crate::rules::check;
use crate::rules::close_letter;
use crate::rules::partners::{complete, partners};
use crate::rules::sequence::{sequence, Side, Standing};
use crate::table::Unit;
use crate::Refusal;

pub fn rewrite(table: &[u8], side: u8, id: u16, form: u8, room: usize) -> Outcome {
    let unit = check(table)?;
    let refuse = |number| Err(Refusal::without_place(number));
    // "2: other letters."
    let side = match side {
        b'S' => Side::Source,
        b'T' => Side::Target,
        _ => return refuse(2),
    };
    if form != b'P' && form != b'S' {
        return refuse(2);
    }
    let standing = sequence(&unit, side);
    let found = partners(&standing);
    // "20: no complete pair or annotation of that id on that side, or already so."
    let Some((start, end)) = complete(&standing, &found, id) else {
        return refuse(20);
    };
    if form_of(standing[start].inline) == form {
        return refuse(20);
    }
    // "21, to P".
    if form == b'P' && !may_be_pc(&standing, &found, start, end) {
        return refuse(21);
    }
    let result = with_marks(&unit, side, id);
    hand_out(&result, room)
}

fn form_of(start: &Inline) -> u8 {
    match start.mark() {
        Some(b"PO") | Some(b"MO") => b'P',
        _ => b'S',
    }
}

/// 21: "not in one content, not balanced between, or the end's canReorder is not the `PC`
/// letter" refuses.
fn may_be_pc(standing: &[Standing], found: &[Option<usize>], start: usize, end: usize) -> bool {
    let one_content = standing[start].part == standing[end].part;
    let between = start + 1..end;
    let balanced = between.clone().all(|i| match standing[i].inline.mark() {
        Some(b"PO") | Some(b"PC") | Some(b"MO") | Some(b"MC") => {
            found[i].is_some_and(|partner| between.contains(&partner))
        }
        _ => true,
    });
    let letter = match (standing[start].inline.code(), standing[end].inline.code()) {
        (Some(start), Some(end)) => end.can_reorder == close_letter(start),
        _ => true,
    };
    one_content && balanced && letter
}

/// "Only marks change": both halves of this id on this side take the other form.
fn with_marks(unit: &Unit, side: Side, id: u16) -> Unit {
    let mut result = unit.clone();
    for part in &mut result.parts {
        let content = match side {
            Side::Source => Some(&mut part.source),
            Side::Target => part.target.as_mut().map(|target| &mut target.content),
        };
        for placed in content.into_iter().flatten() {
            match &mut placed.inline {
                Inline::Code(code) if code.id == id => code.mark = other_form(code.mark),
                Inline::Annotation(a) if a.id == id => a.mark = other_form(a.mark),
                _ => {}
            }
        }
    }
    result
}

fn other_form(mark: Mark) -> Mark {
    match &mark {
        b"PO" => *b"SC",
        b"SC" => *b"PO",
        b"PC" => *b"EC",
        b"EC" => *b"PC",
        b"MO" => *b"SM",
        b"SM" => *b"MO",
        b"MC" => *b"EM",
        b"EM" => *b"MC",
        _ => mark,
    }
}
