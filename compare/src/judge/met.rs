//! How often each number of the screen was met, and each bound reached.

use std::collections::BTreeMap;

/// The numbers that the product can show.
const NUMBERS: [u32; 23] = [
    1, 2, 3, 4, 5, 6, 7, 8, 11, 12, 13, 14, 15, 16, 17, 18, 21, 22, 23, 24, 25, 31, 32,
];

pub struct Met {
    counts: BTreeMap<u32, u64>,
    /// By the name of the bound.
    bounds_reached: BTreeMap<String, u64>,
}

impl Met {
    /// Nothing is met yet, and none of these bounds is reached.
    pub fn nothing(bounds: Vec<String>) -> Met {
        Met {
            counts: BTreeMap::new(),
            bounds_reached: bounds.into_iter().map(|bound| (bound, 0)).collect(),
        }
    }

    pub fn meet(&mut self, number: u32) {
        *self.counts.entry(number).or_default() += 1;
    }

    /// Each number of the screen, with how often it was met.
    pub fn all(&self) -> Vec<(u32, u64)> {
        NUMBERS
            .iter()
            .map(|&number| (number, self.counts.get(&number).copied().unwrap_or(0)))
            .collect()
    }

    /// A case stayed within this bound. Did it reach it?
    pub fn stay_within_bound(&mut self, bound: &str, reached: bool) {
        let times = self.bounds_reached.get_mut(bound);
        *times.expect("a bound is named before the cases are run") += u64::from(reached);
    }

    /// Each bound, with how often it was reached.
    pub fn bounds_reached(&self) -> impl Iterator<Item = (&str, u64)> {
        let reached = self.bounds_reached.iter();
        reached.map(|(bound, &times)| (bound.as_str(), times))
    }
}
