//! The list of a content, its codes with canReorder F or N: whole chains moved, and lists that are
//! wrong (document 02, order 4).

use super::random::Random;
use crate::record::{Code, Inline};

/// The first holds the N before any F and may be empty; an F begins each of the others.
type Chains = Vec<Vec<Code>>;

/// Whole chains in another sequence; the N before any F stay first.
pub fn move_chains(random: &mut Random, content: &mut Vec<Inline>) {
    let mut chains = chains(content);
    random.shuffle(&mut chains[1..]);
    put_back(content, chains);
}

/// A list that is mostly no rearrangement of the chains; an empty one stays.
pub fn spoil_chains(random: &mut Random, content: &mut Vec<Inline>) {
    let old = chains(content);
    // Not every content has a chain, an N or a neighbour for every change.
    for _ in 0..20 {
        let mut chains = old.clone();
        spoil(random, &mut chains);
        if chains.concat() != old.concat() {
            return put_back(content, chains);
        }
    }
}

/// Whether a content has two chains or more that begin with F.
pub fn has_chains(content: &[Inline]) -> bool {
    chains(content).len() > 2
}

/// Whether a content has an N before any F, and an F.
pub fn has_leading(content: &[Inline]) -> bool {
    let chains = chains(content);
    chains.len() > 1 && !chains[0].is_empty()
}

fn is_listed(inline: &Inline) -> bool {
    inline.code().is_some_and(|code| code.can_reorder != b'Y')
}

fn chains(content: &[Inline]) -> Chains {
    let mut chains = vec![Vec::new()];
    for code in content.iter().filter(|inline| is_listed(inline)).filter_map(Inline::code) {
        if code.can_reorder == b'F' {
            chains.push(Vec::new());
        }
        chains.last_mut().expect("one at least").push(code.clone());
    }
    chains
}

/// The codes take the places of the old list; what is too much stands behind its last place.
fn put_back(content: &mut Vec<Inline>, chains: Chains) {
    let mut codes = chains.into_iter().flatten().map(Inline::Code);
    let last = content.iter().rposition(is_listed);
    for (place, inline) in std::mem::take(content).into_iter().enumerate() {
        match is_listed(&inline) {
            true => content.extend(codes.next()),
            false => content.push(inline),
        }
        if Some(place) == last {
            content.extend(codes.by_ref());
        }
    }
}

fn spoil(random: &mut Random, chains: &mut Chains) {
    let [one, two] = [(); 2].map(|_| random.below(chains.len()));
    match random.below(12) {
        0 | 1 => swap_neighbours(random, &mut chains[one]),
        2 => move_last(random, chains, one, two),
        // The N before any F stand at the end of another chain.
        3 | 4 => {
            let leading = std::mem::take(&mut chains[0]);
            chains[one].extend(leading);
        }
        // A chain twice, a chain twice in another's place, a chain less.
        5 => chains.insert(two, chains[one].clone()),
        6 => chains[one] = chains[two].clone(),
        7 => drop(chains.remove(one)),
        8 | 9 => change_letter(random, &mut chains[one]),
        10 => repeat_with_other_letter(random, chains, one),
        _ => swap_any(random, chains, one, two),
    }
}

/// Two codes of a chain that stand behind its F, if it has one.
fn swap_neighbours(random: &mut Random, chain: &mut [Code]) {
    let behind_first = chain.iter().position(|code| code.can_reorder == b'N').unwrap_or(0);
    let followers = &mut chain[behind_first..];
    if followers.len() > 1 {
        let place = random.below(followers.len() - 1);
        followers.swap(place, place + 1);
    }
}

/// An N leaves its chain for another.
fn move_last(random: &mut Random, chains: &mut Chains, from: usize, to: usize) {
    if let Some(code) = chains[from].pop_if(|code| code.can_reorder == b'N') {
        let place = chains[to].len() - random.below(chains[to].len());
        chains[to].insert(place, code);
    }
}

fn other_letter(code: &mut Code) {
    code.can_reorder = if code.can_reorder == b'F' { b'N' } else { b'F' };
}

/// An F becomes N, or an N becomes F.
fn change_letter(random: &mut Random, chain: &mut [Code]) {
    if !chain.is_empty() {
        other_letter(&mut chain[random.below(chain.len())]);
    }
}

/// A code once more, at the end of any chain, with the other letter.
fn repeat_with_other_letter(random: &mut Random, chains: &mut Chains, one: usize) {
    if !chains[one].is_empty() {
        let mut code = random.pick(&chains[one]).clone();
        other_letter(&mut code);
        let place = random.below(chains.len());
        chains[place].push(code);
    }
}

/// Two codes of any two chains, or one of them twice.
fn swap_any(random: &mut Random, chains: &mut Chains, one: usize, two: usize) {
    if chains[one].is_empty() || chains[two].is_empty() {
        return;
    }
    let first = (one, random.below(chains[one].len()));
    let second = (two, random.below(chains[two].len()));
    let code = chains[first.0][first.1].clone();
    if first == second {
        chains[one].insert(first.1, code);
    } else {
        chains[first.0][first.1] = std::mem::replace(&mut chains[second.0][second.1], code);
    }
}
