//! Rule 7's partners.

use super::sequence::Standing;
use crate::record::{Half, Inline, Mark};

/// For each record of a sequence the position of its partner, if it has one.
pub fn partners(sequence: &[Standing]) -> Vec<Option<usize>> {
    let mut found = vec![None; sequence.len()];
    let mut first = 0;
    while first < sequence.len() {
        let part = sequence[first].part;
        let length = sequence[first..].iter().take_while(|s| s.part == part).count();
        let content: Vec<&Inline> =
            sequence[first..first + length].iter().map(|s| s.inline).collect();
        for (position, partner) in partners_in_content(&content).into_iter().enumerate() {
            found[first + position] = partner.map(|p| first + p);
        }
        first += length;
    }
    start_and_end_partners(sequence, &mut found);
    found
}

/// The "complete pair or annotation of that id", its start and its end, among the partners found.
pub fn complete(sequence: &[Standing], found: &[Option<usize>], id: u16) -> Option<(usize, usize)> {
    let is_start = |standing: &Standing| {
        standing.inline.id() == Some(id) && standing.inline.half() == Some(Half::Start)
    };
    let starts = (0..sequence.len()).filter(|&place| is_start(&sequence[place]));
    starts.filter_map(|start| Some((start, found[start]?))).next()
}

/// "`PO`/`PC` and `MO`/`MC` are partners, same id, if what stands between them in one content
/// is balanced in these marks: each such mark there has its partner there too."
///
/// One pass: `open` holds the opens with nothing but balanced marks behind them. A close that
/// fits the last of them is its partner; any other close is stray, and no open before it can
/// have a partner after it.
pub fn partners_in_content(content: &[&Inline]) -> Vec<Option<usize>> {
    let mut found = vec![None; content.len()];
    let mut open: Vec<usize> = Vec::new();
    for (position, inline) in content.iter().enumerate() {
        let Some(mark) = inline.mark() else { continue };
        match mark {
            b"PO" | b"MO" => open.push(position),
            b"PC" | b"MC" => match open.pop() {
                Some(start) if fit(content[start], inline) => {
                    found[start] = Some(position);
                    found[position] = Some(start);
                }
                _ => open.clear(),
            },
            _ => {}
        }
    }
    found
}

fn fit(start: &Inline, end: &Inline) -> bool {
    end.mark() == start.mark().and_then(end_mark) && start.id() == end.id()
}

fn end_mark(start: &Mark) -> Option<&'static Mark> {
    match start {
        b"PO" => Some(b"PC"),
        b"MO" => Some(b"MC"),
        b"SC" => Some(b"EC"),
        b"SM" => Some(b"EM"),
        _ => None,
    }
}

/// "`SC`/`EC` and `SM`/`EM`: the end is the first of its mark and id after the start in its
/// sequence, and no other start's."
fn start_and_end_partners(sequence: &[Standing], found: &mut [Option<usize>]) {
    for start in 0..sequence.len() {
        if !matches!(sequence[start].inline.mark(), Some(b"SC") | Some(b"SM")) {
            continue;
        }
        let end = (start + 1..sequence.len())
            .find(|&position| fit(sequence[start].inline, sequence[position].inline));
        if let Some(end) = end.filter(|&end| found[end].is_none()) {
            found[start] = Some(end);
            found[end] = Some(start);
        }
    }
}
