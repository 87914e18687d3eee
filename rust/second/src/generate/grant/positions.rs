//! The positions of a grant.

use crate::generate::random::Random;

/// Positions for a call about these parts of a unit of so many: with all of them, some or none, and
/// others; sometimes with 0, with positions beyond the unit, and twice.
pub fn positions(random: &mut Random, about: &[u16], parts: usize) -> Vec<u8> {
    // Of a part number beyond a byte the low byte: it is another part's position.
    let about: Vec<u8> = about.iter().map(|&part| part as u8).collect();
    let mut positions = chosen(random, &about, parts);
    if random.chance(12) {
        positions.push(0);
    }
    if random.chance(2) {
        // Every byte once, or more positions than a unit has parts.
        positions = if random.chance(50) { (0..=255).collect() } else { positions.repeat(65) };
    }
    if random.chance(20) {
        positions.push(*random.pick(&[parts as u8 + 1, parts as u8 + 1, 65, 128, 255]));
    }
    if random.chance(20) && !positions.is_empty() {
        positions.push(*random.pick(&positions));
    }
    random.shuffle(&mut positions);
    positions
}

fn chosen(random: &mut Random, about: &[u8], parts: usize) -> Vec<u8> {
    let every = 1..=parts as u8;
    let one = about.first().map_or(1, |_| *random.pick(about));
    let in_two_parts = about.iter().any(|part| *part != one);
    let is_missing = !every.contains(&one);
    match random.below(16) {
        0 => Vec::new(),
        1 | 2 => every.collect(),
        3 => every.filter(|position| !about.contains(position)).collect(),
        4 | 5 => every.filter(|position| *position != one).collect(),
        6 | 7 => vec![one],
        8 | 9 if in_two_parts => {
            let others = every.filter(|position| !about.contains(position) && random.chance(50));
            others.chain([one]).collect()
        }
        8..=10 if is_missing => every.filter(|_| random.chance(60)).collect(),
        8 => every.filter(|_| random.chance(50)).collect(),
        9..=11 => about.to_vec(),
        _ => {
            let others = every.filter(|_| random.chance(30));
            others.chain(about.iter().copied()).collect()
        }
    }
}
