//! Counts of what was seen, and what must have been seen.

use std::collections::BTreeMap;

#[derive(Default)]
pub struct Tally {
    counts: BTreeMap<String, u64>,
}

impl Tally {
    /// A tally that knows what must be seen.
    pub fn expecting<S: Into<String>>(names: impl IntoIterator<Item = S>) -> Tally {
        Tally { counts: names.into_iter().map(|name| (name.into(), 0)).collect() }
    }

    pub fn add(&mut self, name: &str, times: u64) {
        match self.counts.get_mut(name) {
            Some(count) => *count += times,
            None => {
                self.counts.insert(name.to_string(), times);
            }
        }
    }

    /// One line of all counts.
    pub fn line(&self) -> String {
        self.counts.iter().map(|(name, count)| format!("{name} {count}")).collect::<Vec<_>>().join(", ")
    }

    /// What was expected and never seen.
    pub fn unseen(&self) -> Vec<&str> {
        self.counts.iter().filter(|(_, &count)| count == 0).map(|(name, _)| name.as_str()).collect()
    }
}
