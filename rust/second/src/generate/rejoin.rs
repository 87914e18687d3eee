//! Lists of accepted splits, to be undone.

use super::random::Random;
use super::requests::split;
use super::unit::valid_table;
use crate::rejoin::Undoing;
use crate::rules::check;

/// One to this many splits.
const MOST_SPLITS: usize = 8;

/// The list of this seed and number. Of a unit in which no part can be cut there is none, so
/// another is drawn.
pub fn splits_undone(seed: u64, number: u64) -> Undoing {
    let random = &mut Random::of_job(seed, number);
    loop {
        let mut list = Undoing::of(valid_table(random));
        let tries = 1 + random.below(MOST_SPLITS);
        let mut accepted = false;
        for _ in 0..tries {
            let unit = check(list.left()).expect("accepted splits leave valid tables");
            accepted |= list.add(split(random, &unit));
        }
        if accepted {
            return list;
        }
    }
}
