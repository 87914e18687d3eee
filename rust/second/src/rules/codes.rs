//! Rules 8 to 10: the fields of partners, overlap, and the target's codes against the source's.

use super::partners::partners;
use super::sequence::{source_sequence, target_sequence, Standing};
use crate::record::{Class, Code, Inline};
use crate::table::Unit;

/// Rule 8, in both sequences.
pub fn rule_8(unit: &Unit) -> Option<usize> {
    let (source, target) = (source_sequence(unit), target_sequence(unit));
    let faults = [
        partner_faults(&source),
        partner_faults(&target),
        letter_faults(&source),
        letter_faults(&target),
        firstless(&source),
    ];
    faults.into_iter().flatten().min()
}

/// The clauses that compare partners. "Of partners the end is blamed."
fn partner_faults(sequence: &[Standing]) -> Vec<usize> {
    let found = partners(sequence);
    let mut faults = Vec::new();
    for (position, partner) in found.iter().enumerate() {
        let (Some(partner), Inline::Code(start)) = (partner, sequence[position].inline) else {
            continue;
        };
        let end = &sequence[*partner];
        if position < *partner && end.inline.code().is_some_and(|end| partners_differ(start, end)) {
            faults.push(end.offset);
        }
    }
    faults
}

/// "partners differ in copyOf, canCopy, canDelete or canOverlap; an end whose start has F is
/// not N; a `PC` letter is not N for F and else equal to `PO`'s".
fn partners_differ(start: &Code, end: &Code) -> bool {
    let fields = |code: &Code| (code.copy_of, code.can_copy, code.can_delete, code.can_overlap);
    fields(start) != fields(end)
        || (start.can_reorder == b'F' && end.can_reorder != b'N')
        || (&end.mark == b"PC" && end.can_reorder != close_letter(start))
}

/// The `PC` letter: "N for F and else equal to `PO`'s".
pub fn close_letter(start: &Code) -> u8 {
    if start.can_reorder == b'F' {
        b'N'
    } else {
        start.can_reorder
    }
}

/// "canReorder F or N with canCopy or canDelete Y": that record.
fn letter_faults(sequence: &[Standing]) -> Vec<usize> {
    let at_fault = |code: &Code| {
        code.can_reorder != b'Y' && (code.can_copy == b'Y' || code.can_delete == b'Y')
    };
    let faults = sequence.iter().filter(|s| s.inline.code().is_some_and(at_fault));
    faults.map(|s| s.offset).collect()
}

/// "a source N with no F before it in the source sequence": that record.
fn firstless(source: &[Standing]) -> Vec<usize> {
    let reorder = |s: &Standing| s.inline.code().map(|code| code.can_reorder);
    let before_first = source.iter().take_while(|s| reorder(s) != Some(b'F'));
    before_first.filter(|s| reorder(s) == Some(b'N')).map(|s| s.offset).collect()
}

/// Rule 9, in both sequences.
pub fn rule_9(unit: &Unit) -> Option<usize> {
    let faults = [overlap_faults(&source_sequence(unit)), overlap_faults(&target_sequence(unit))];
    faults.into_iter().flatten().min()
}

/// "9: a pair with canOverlap N encloses, in its sequence, an isolated code, or a half of
/// another code whose other half is not also inside. The start is blamed."
fn overlap_faults(sequence: &[Standing]) -> Vec<usize> {
    let found = partners(sequence);
    let mut faults = Vec::new();
    for (start, partner) in found.iter().enumerate() {
        let (Some(end), Inline::Code(code)) = (*partner, sequence[start].inline) else {
            continue;
        };
        if start > end || code.can_overlap != b'N' {
            continue;
        }
        let inside = start + 1..end;
        let at_fault = inside.clone().any(|i| match sequence[i].inline.class() {
            Some(Class::IsolatedStart) | Some(Class::IsolatedEnd) => true,
            Some(Class::Pair) => !found[i].is_some_and(|other| inside.contains(&other)),
            _ => false,
        });
        if at_fault {
            faults.push(sequence[start].offset);
        }
    }
    faults
}

/// Rule 10, in both sequences.
pub fn rule_10(unit: &Unit) -> Option<usize> {
    let (source, target) = (source_sequence(unit), target_sequence(unit));
    let copied = |s: &&Standing| s.inline.code().is_some_and(|code| code.copy_of != 0);
    let source_faults = source.iter().filter(copied);
    let target_faults = target
        .iter()
        .filter(|s| differs_from_source(s.inline, &source) || names_no_code(s.inline, &source));
    source_faults.chain(target_faults).map(|s| s.offset).min()
}

/// "a target record with the id of a source start is of another class or, for codes, differs
/// from the same source half in dataRef or letters or has a copyOf".
fn differs_from_source(record: &Inline, source: &[Standing]) -> bool {
    let Some(id) = record.id() else { return false };
    let of_id = |s: &&Standing| s.inline.id() == Some(id);
    let Some(start) = source.iter().filter(of_id).find(|s| s.inline.is_start()) else {
        return false;
    };
    if start.inline.class() != record.class() {
        return true;
    }
    let Some(code) = record.code() else {
        return false;
    };
    let same_half = |s: &&Standing| s.inline.half() == record.half();
    let counterpart = source.iter().filter(of_id).find(same_half).and_then(|s| s.inline.code());
    code.copy_of != 0
        || counterpart.is_none_or(|c| (c.data_ref, letters(c)) != (code.data_ref, letters(code)))
}

fn letters(code: &Code) -> [u8; 4] {
    [code.can_copy, code.can_delete, code.can_overlap, code.can_reorder]
}

/// "or is not 0 and names no source code of that class with canCopy Y".
fn names_no_code(record: &Inline, source: &[Standing]) -> bool {
    let Some(code) = record.code().filter(|code| code.copy_of != 0) else {
        return false;
    };
    !source.iter().any(|s| {
        s.inline.class() == record.class()
            && s.inline.code().is_some_and(|c| c.id == code.copy_of && c.can_copy == b'Y')
    })
}
