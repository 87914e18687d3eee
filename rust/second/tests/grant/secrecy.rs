//! "Valid units that differ only in those targets and states have the same view in every byte."
//! Those: the targets and states of parts outside the grant.

use second::generate::{valid_table, Random};
use second::record::Inline;
use second::rules::check;
use second::table::{Part, PartKind, Placed, Target, Unit};

use super::*;

const SEED: u64 = 6;
const UNITS: u64 = 4000;

/// A unit of several parts, a role, and positions of some of them.
fn granted(random: &mut Random) -> (Unit, u8, Vec<u8>) {
    let unit = loop {
        let unit = check(&valid_table(random)).expect("a valid table");
        if unit.parts.len() > 1 {
            break unit;
        }
    };
    let percent = *random.pick(&[0, 30, 60, 90]);
    let all = 1..=unit.parts.len() as u8;
    let positions = all.filter(|_| random.chance(percent)).collect();
    (unit, random.letter(b"TTRRX"), positions)
}

/// Where the parts outside the grant stand.
fn outside(unit: &Unit, role: u8, positions: &[u8]) -> Vec<usize> {
    let is_outside = |place: &usize| role == b'X' || !positions.contains(&(*place as u8 + 1));
    (0..unit.parts.len()).filter(is_outside).collect()
}

/// Changes the target or the state of a part, its order too; the other parts lend contents.
fn change(random: &mut Random, unit: &mut Unit, place: usize) {
    let parts = unit.parts.len();
    let lent = random.pick(&unit.parts).source.clone();
    let part = &mut unit.parts[place];
    let order = 1 + random.below(parts) as u16;
    match (random.below(6), &mut part.target, &mut part.kind) {
        (0 | 1, _, PartKind::Segment { state, .. }) => *state = random.letter(b"ITRF"),
        (2, target, _) => *target = None,
        (3, Some(target), _) => target.order = order,
        (4, Some(target), _) => target.content = text(random),
        (_, target, _) => {
            let order = target.as_ref().map_or(order, |target| target.order);
            let content = if random.chance(50) { lent } else { text(random) };
            *target = Some(Target { offset: 0, order, content });
        }
    }
}

/// A text, or nothing.
fn text(random: &mut Random) -> Vec<Placed> {
    let texts = ["x", "öffnet", "😀 "];
    let inline = Inline::Text(random.pick(&texts).as_bytes().to_vec());
    if random.chance(25) {
        return Vec::new();
    }
    vec![Placed { offset: 0, inline }]
}

/// Valid units that differ from this one only in targets and states of these parts.
fn others(random: &mut Random, unit: &Unit, places: &[usize]) -> Vec<Unit> {
    let (mut others, mut current) = (Vec::new(), unit.clone());
    for _ in 0..12 {
        let mut changed = current.clone();
        let place = *random.pick(places);
        change(random, &mut changed, place);
        if check(&changed.write()).is_ok() {
            current = changed;
            others.push(current.clone());
        }
    }
    others
}

/// In how many pairs of units a part's target, state or order differs.
#[derive(Debug, Default)]
struct Differing {
    targets: usize,
    states: usize,
    orders: usize,
}

impl Differing {
    fn add(&mut self, one: &Unit, other: &Unit) {
        let differ = |of: fn(&Part) -> Vec<u8>| {
            one.parts.iter().zip(&other.parts).any(|(one, other)| of(one) != of(other))
        };
        self.targets += usize::from(differ(content));
        self.states += usize::from(differ(state));
        self.orders += usize::from(differ(order));
    }
}

/// The content of a part's target as bytes, behind a byte where there is one.
fn content(part: &Part) -> Vec<u8> {
    let mut bytes = Vec::new();
    if let Some(target) = &part.target {
        bytes.push(0);
        target.content.iter().for_each(|placed| placed.inline.write(&mut bytes));
    }
    bytes
}

fn state(part: &Part) -> Vec<u8> {
    match part.kind {
        PartKind::Segment { state, .. } => vec![state],
        PartKind::Ignorable => Vec::new(),
    }
}

fn order(part: &Part) -> Vec<u8> {
    part.target.as_ref().map_or(Vec::new(), |target| target.order.to_be_bytes().to_vec())
}

#[test]
fn what_is_outside_the_grant_is_not_seen() {
    let mut differing = Differing::default();
    for number in 0..UNITS {
        let random = &mut Random::of_job(SEED, number);
        let (unit, role, positions) = granted(random);
        let places = outside(&unit, role, &positions);
        if places.is_empty() {
            continue;
        }
        let table = unit.write();
        let view = seen(role, &positions, &table).expect("a valid unit");
        for other in others(random, &unit, &places) {
            let other_table = other.write();
            let context = || format!("{}\n{}", table.escape_ascii(), other_table.escape_ascii());
            assert_eq!(seen(role, &positions, &other_table).as_ref(), Ok(&view), "{}", context());
            // and the answer to an output too short is the same
            let grant = Grant { role, positions: &positions };
            assert_eq!(super::view(&grant, &other_table, view.len() - 1), refused(15, 0));
            differing.add(&unit, &other);
        }
    }
    println!("{differing:?}");
    let Differing { targets, states, orders } = differing;
    assert!(targets > 5000 && states > 5000 && orders > 5000, "too few differ");
}

/// What is granted is seen: units that differ in the target or state of a granted part have
/// different views.
#[test]
fn what_is_granted_is_seen() {
    let mut compared = 0;
    for number in 0..UNITS {
        let random = &mut Random::of_job(SEED + 1, number);
        let (unit, role, positions) = granted(random);
        let hidden = outside(&unit, role, &positions);
        let shown: Vec<usize> = (0..unit.parts.len()).filter(|p| !hidden.contains(p)).collect();
        if shown.is_empty() {
            continue;
        }
        let table = unit.write();
        for other in others(random, &unit, &shown) {
            let same = other.write() == table;
            let views = [&table, &other.write()].map(|table| seen(role, &positions, table));
            assert_eq!(views[0] == views[1], same, "{}", table.escape_ascii());
            compared += usize::from(!same);
        }
    }
    assert!(compared > 5000, "only {compared} units differ");
}

/// "An engineer's grant counts as every part, so that view is the whole table."
#[test]
fn an_engineers_view_is_the_table_itself() {
    for number in 0..UNITS {
        let random = &mut Random::of_job(SEED + 2, number);
        let (unit, _, positions) = granted(random);
        let table = unit.write();
        assert_eq!(seen(b'E', &positions, &table), Ok(table));
    }
}
