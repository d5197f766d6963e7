//! Named cases in groups, and how often each was met.

use std::collections::BTreeMap;

/// The groups and the cases of each, in the order in which they are printed.
pub type List = [(&'static str, &'static [&'static str])];

/// How often each case was met.
#[derive(Clone, Debug, Default)]
pub struct Cases {
    counts: BTreeMap<(&'static str, &'static str), u64>,
}

impl Cases {
    pub fn count(&mut self, group: &'static str, case: &'static str) {
        *self.counts.entry((group, case)).or_default() += 1;
    }

    pub fn of(&self, group: &'static str, case: &'static str) -> u64 {
        self.counts.get(&(group, case)).copied().unwrap_or(0)
    }

    /// Both together.
    pub fn and(mut self, other: Cases) -> Cases {
        for (case, count) in other.counts {
            *self.counts.entry(case).or_default() += count;
        }
        self
    }

    /// The counts of one group.
    pub fn line(&self, group: &'static str, cases: &[&'static str]) -> String {
        let counts: Vec<String> =
            cases.iter().map(|case| format!("{case}: {}", self.of(group, case))).collect();
        counts.join(", ")
    }

    /// A line for each group, its name so wide.
    pub fn lines(&self, list: &List, width: usize) -> String {
        let line = |(group, cases): &(&'static str, &[&'static str])| {
            format!("  {group:<width$} {}\n", self.line(group, cases))
        };
        list.iter().map(line).collect()
    }
}

#[cfg(test)]
mod tests {
    use super::*;

    #[test]
    fn cases_are_counted_by_group() {
        let list: [(&str, &[&str]); 2] = [("one", &["a", "b"]), ("two", &["a"])];
        let mut cases = Cases::default();
        cases.count("one", "a");
        let mut others = Cases::default();
        others.count("one", "a");
        others.count("two", "a");
        let both = cases.and(others);
        assert_eq!([both.of("one", "a"), both.of("one", "b"), both.of("two", "a")], [2, 0, 1]);
        assert_eq!(both.lines(&list, 4), "  one  a: 2, b: 0\n  two  a: 1\n");
    }
}
