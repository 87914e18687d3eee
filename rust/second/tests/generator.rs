//! The generator: valid units are valid and rich, and every number of the desk program is reached.

use second::desk::{desk, NUMBERS};
use second::generate::{drafted, job, valid_table, Kind, Random};
use second::record::Inline;
use second::rules::check;
use second::tally::Tally;

const SEED: u64 = 1;

#[test]
fn valid_units_are_valid_and_rich() {
    let random = &mut Random::new(SEED);
    let (units, mut marks) = (3000, std::collections::BTreeMap::new());
    let mut at_once = 0;
    let (mut parts, mut targets, mut shuffled, mut copies, mut lone) = (0, 0, 0, 0, 0);
    for _ in 0..units {
        at_once += usize::from(check(&drafted(random, 4).write()).is_ok());
        let unit = check(&valid_table(random)).expect("a valid table");
        parts += unit.parts.len();
        let orders: Vec<u16> =
            unit.parts.iter().filter_map(|p| p.target.as_ref()).map(|t| t.order).collect();
        targets += orders.len();
        shuffled += usize::from(!orders.is_sorted());
        let target: Vec<&Inline> = unit
            .parts
            .iter()
            .filter_map(|p| p.target.as_ref())
            .flat_map(|t| &t.content)
            .map(|placed| &placed.inline)
            .collect();
        copies += target.iter().filter(|i| i.code().is_some_and(|c| c.copy_of != 0)).count();
        lone += target
            .iter()
            .filter(|i| i.half().is_some())
            .filter(|i| {
                target.iter().filter(|o| o.half().is_some() && o.id() == i.id()).count() == 1
            })
            .count();
        for record in unit.records() {
            let mut bytes = Vec::new();
            record.write(&mut bytes);
            *marks.entry(String::from_utf8_lossy(&bytes[..2]).into_owned()).or_insert(0) += 1;
        }
    }
    println!("{units} units: {at_once} of as many drafts valid without repair; {parts} parts, {targets} targets,");
    println!("{shuffled} units with orders not rising, {copies} copies, {lone} lone target halves; {marks:?}");
    assert_eq!(marks.len(), 18, "every mark occurs");
    assert!(shuffled > units / 20 && copies > units / 20 && lone > units / 20);
}

#[test]
fn every_answer_is_reached() {
    let mut tally = Tally::default();
    let mut kinds = [0; 8];
    for number in 0..4000 {
        let (kind, job) = job(SEED, number);
        kinds[Kind::ALL.iter().position(|k| *k == kind).unwrap()] += 1;
        tally.count(&desk(&job));
    }
    println!("{kinds:?}\n{}", tally.report(NUMBERS));
    for number in NUMBERS {
        assert!(tally.refused.contains_key(&number), "number {number} is not reached");
    }
}
