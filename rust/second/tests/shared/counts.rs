//! In how many jobs, parts or columns each case occurs, so that a test can ask for enough of them.

use std::collections::BTreeMap;

#[derive(Default)]
pub struct Counts(BTreeMap<String, usize>);

impl Counts {
    pub fn add(&mut self, case: impl Into<String>) {
        *self.0.entry(case.into()).or_default() += 1;
    }

    pub fn must_have(&self, least: usize, cases: impl IntoIterator<Item = String>) {
        for case in cases {
            let count = self.0.get(&case).copied().unwrap_or(0);
            assert!(count >= least, "only {count}: {case}");
        }
    }

    /// A line for each case, shown where the test fails.
    pub fn print(&self) {
        self.0.iter().for_each(|(case, count)| println!("{count:>7}  {case}"));
    }
}
