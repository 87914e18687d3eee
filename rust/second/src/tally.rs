//! The answers in what a desk printed: accepted, and refused by each number.

use std::collections::BTreeMap;

const MOST_LINES: usize = 100;

#[derive(Clone, Default)]
pub struct Tally {
    /// Lines `OK length`.
    pub accepted: usize,
    /// Lines `NO number place`, by number.
    pub refused: BTreeMap<u16, usize>,
    /// Lines `BAD`.
    pub unreadable: usize,
    /// Lines with a table.
    pub tables: usize,
}

impl Tally {
    /// Counts a job's lines; of a very long output the first ones only, so that one job with
    /// thousands of requests does not stand for all.
    pub fn count(&mut self, printed: &[u8]) {
        for line in String::from_utf8_lossy(printed).lines().take(MOST_LINES) {
            let mut words = line.split(' ');
            match (words.next(), words.next().and_then(|word| word.parse::<u16>().ok())) {
                (Some("OK"), _) => self.accepted += 1,
                (Some("NO"), Some(number)) => *self.refused.entry(number).or_default() += 1,
                (Some("BAD"), _) => self.unreadable += 1,
                _ => self.tables += 1,
            }
        }
    }

    /// A line for each answer with its count and share of all lines: tables and unreadable
    /// requests if there are any, accepted, refused by each of these numbers.
    pub fn report(&self, numbers: impl IntoIterator<Item = u16>) -> String {
        let refused: usize = self.refused.values().sum();
        let all = self.accepted + self.tables + self.unreadable + refused;
        let line = |name: String, count: usize| {
            format!("  {name:<16}{count:>8}{:>8.2} %\n", 100.0 * count as f64 / all.max(1) as f64)
        };
        let mut report = String::new();
        if self.tables > 0 {
            report += &line("table printed".into(), self.tables);
        }
        if self.unreadable > 0 {
            report += &line("unreadable".into(), self.unreadable);
        }
        report += &line("accepted".into(), self.accepted);
        for number in numbers {
            let count = self.refused.get(&number).copied().unwrap_or(0);
            report += &line(format!("refused {number}"), count);
        }
        report
    }
}
