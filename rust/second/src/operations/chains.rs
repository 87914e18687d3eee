//! Document 02, order 4, "Marker chains may change places."

use super::content::codes;
use crate::record::{Code, Half, Inline};
use crate::table::Placed;

/// A code with canReorder F or N: its id, its half and that letter.
type Entry = (u16, Option<Half>, u8);

/// A content's chains, "each in its own order".
#[derive(PartialEq, Eq)]
struct Chains {
    /// "N before any F form one chain and stay first."
    leading: Vec<Entry>,
    /// "A chain is an F and the N that follow it in the list, up to the next F"; sorted, so that
    /// their places do not count.
    others: Vec<Vec<Entry>>,
}

/// Whether the new content's list is "a rearrangement of the old list's whole chains, each in its
/// own order".
pub fn rearranged(old: &[Placed], new: &[Placed]) -> bool {
    Chains::of(old) == Chains::of(new)
}

impl Chains {
    fn of(content: &[Placed]) -> Chains {
        let mut chains = Chains { leading: Vec::new(), others: Vec::new() };
        for entry in codes(content).filter_map(entry) {
            match (entry, chains.others.last_mut()) {
                ((_, _, b'F'), _) => chains.others.push(vec![entry]),
                (_, Some(chain)) => chain.push(entry),
                (_, None) => chains.leading.push(entry),
            }
        }
        chains.others.sort();
        chains
    }
}

fn entry(code: &Code) -> Option<Entry> {
    let half = Inline::Code(code.clone()).half();
    (code.can_reorder != b'Y').then_some((code.id, half, code.can_reorder))
}
