//! The source of a generated unit: nested and crossing pairs and annotations in one flat
//! sequence, cut into contents, then given letters that fit each other.

use std::collections::HashMap;

use super::inline::{
    accents, annotation, character, code, cut_into, halves, text, turn_to_brackets,
};
use super::random::{Ids, Random};
use crate::record::{Code, Half, Inline};

/// How many of a hundred stretches of a source end in a run of codes.
const RUN_PERCENT: usize = 35;

pub struct Source {
    /// The content of each part.
    pub contents: Vec<Vec<Inline>>,
    /// Ids of pairs and annotations that lie nested in each other, so that they may be pc or mrk.
    pub nested: Vec<u16>,
}

pub fn source(random: &mut Random, ids: &mut Ids, parts: usize) -> Source {
    let (flat, nested, run) = (Vec::new(), Vec::new(), Vec::new());
    let mut growth = Growth { random, ids, flat, nested, run };
    for _ in 0..1 + parts {
        growth.grow(0);
        if growth.random.chance(RUN_PERCENT) {
            growth.add_run();
        }
    }
    let Growth { mut flat, nested, run, .. } = growth;
    if random.chance(45) {
        cross(random, ids, &mut flat);
    }
    let mut contents = cut_into(random, flat, parts);
    for content in &mut contents {
        for &id in &nested {
            if random.chance(70) {
                turn_to_brackets(content, id);
            }
        }
    }
    give_letters(random, &mut contents, &run);
    Source { contents, nested }
}

struct Growth<'a> {
    random: &'a mut Random,
    ids: &'a mut Ids,
    flat: Vec<Inline>,
    nested: Vec<u16>,
    /// Ids of codes that stand in a run.
    run: Vec<u16>,
}

impl Growth<'_> {
    /// Adds a few inline records, pairs and annotations with more inside; behind many, accents.
    fn grow(&mut self, depth: usize) {
        for _ in 0..self.random.below(if depth == 0 { 3 } else { 4 }) {
            let added = match self.random.below(100) {
                0..=39 => text(self.random),
                40..=44 => character(self.random),
                45..=61 => self.single(b"PH"),
                62..=64 => self.single(b"IS"),
                65..=67 => self.single(b"IE"),
                68..=88 if depth < 4 => self.around(depth, true),
                _ if depth < 4 => self.around(depth, false),
                _ => text(self.random),
            };
            self.flat.push(added);
            if self.random.chance(25) {
                self.flat.push(accents(self.random));
            }
        }
    }

    /// Adds two to eight codes behind each other, texts between them: most get canReorder F or N,
    /// so that a content has several chains.
    fn add_run(&mut self) {
        for _ in 0..2 + self.random.below(7) {
            if self.random.chance(30) {
                self.flat.push(text(self.random));
            }
            let code = match self.random.below(5) {
                0 => {
                    let (start, end) = halves(self.random, self.ids, true);
                    self.nested.extend(start.id());
                    self.flat.push(start);
                    end
                }
                _ => self.single(b"PH"),
            };
            self.run.extend(code.id());
            self.flat.push(code);
        }
    }

    fn single(&mut self, mark: &[u8; 2]) -> Inline {
        let id = self.ids.fresh(self.random);
        code(mark, id, self.random)
    }

    /// Adds a start and what stands inside; gives the end.
    fn around(&mut self, depth: usize, pair: bool) -> Inline {
        let (start, end) = halves(self.random, self.ids, pair);
        self.nested.extend(start.id());
        self.flat.push(start);
        self.grow(depth + 1);
        end
    }
}

/// Puts pairs and annotations at any two places, so that they may cross others.
fn cross(random: &mut Random, ids: &mut Ids, flat: &mut Vec<Inline>) {
    for _ in 0..1 + random.below(3) {
        let pair = random.chance(65);
        let (start, end) = halves(random, ids, pair);
        let (one, two) = (random.below(flat.len() + 1), random.below(flat.len() + 1));
        flat.insert(one.max(two), end);
        flat.insert(one.min(two), start);
    }
    if random.chance(10) {
        let id = ids.fresh(random);
        flat.push(annotation(b"SM", id, random));
        flat.push(annotation(b"EM", id, random));
    }
}

/// Letters by rule 8, with chains of canReorder F and N, most of them in runs.
fn give_letters(random: &mut Random, contents: &mut [Vec<Inline>], run: &[u16]) {
    let chain_percent = *random.pick(&[0, 15, 50]);
    let mut starts: HashMap<u16, Code> = HashMap::new();
    let mut first_seen = false;
    for inline in contents.iter_mut().flatten() {
        let half = inline.half();
        let Inline::Code(code) = inline else { continue };
        match starts.get(&code.id) {
            Some(start) if half == Some(Half::End) => end_letters(random, start, code, first_seen),
            _ => {
                let percent = if run.contains(&code.id) { 90 } else { chain_percent };
                start_letters(random, code, percent, first_seen);
                starts.insert(code.id, code.clone());
            }
        }
        first_seen |= code.can_reorder == b'F';
    }
}

fn start_letters(random: &mut Random, code: &mut Code, chain_percent: usize, first_seen: bool) {
    if random.chance(chain_percent) {
        code.can_reorder = if first_seen { random.letter(b"NNNFF") } else { b'F' };
        (code.can_copy, code.can_delete) = (b'N', b'N');
    } else {
        (code.can_copy, code.can_delete) = (random.letter(b"YYN"), random.letter(b"YYN"));
    }
}

fn end_letters(random: &mut Random, start: &Code, end: &mut Code, first_seen: bool) {
    end.can_copy = start.can_copy;
    end.can_delete = start.can_delete;
    end.can_overlap = start.can_overlap;
    end.can_reorder = if start.can_reorder == b'F' { b'N' } else { start.can_reorder };
    let free = (start.can_copy, start.can_delete) == (b'N', b'N') && start.can_reorder != b'F';
    if &end.mark == b"EC" && free && random.chance(30) {
        end.can_reorder = if first_seen { random.letter(b"YNF") } else { random.letter(b"YF") };
    }
}
