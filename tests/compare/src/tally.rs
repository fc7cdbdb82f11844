//! How often something was seen.

use std::collections::BTreeMap;
use std::fmt::{self, Display};

/// The things of one kind and how often each was seen: of the numbers that a call answered with, 0
/// is a call that was not refused.
pub struct Tally<T = u32> {
    seen: BTreeMap<T, u64>,
}

/// What was seen of one kind of things, and what was not though it must be.
pub struct Line {
    pub name: String,
    pub seen: String,
    pub missing: Vec<String>,
}

impl<T> Default for Tally<T> {
    /// Nothing was seen.
    fn default() -> Self {
        Tally {
            seen: BTreeMap::new(),
        }
    }
}

impl<T: Ord + Display> Tally<T> {
    /// Counts one.
    pub fn count(&mut self, thing: T) {
        *self.seen.entry(thing).or_default() += 1;
    }

    /// How often a thing was seen.
    pub fn times(&self, thing: T) -> u64 {
        self.seen.get(&thing).copied().unwrap_or(0)
    }

    /// The line of a kind of things, some of which must have been seen.
    pub fn line(&self, name: impl Into<String>, due: impl IntoIterator<Item = T>) -> Line {
        let missing = due
            .into_iter()
            .filter(|thing| !self.seen.contains_key(thing));
        Line {
            name: name.into(),
            seen: self.to_string(),
            missing: missing.map(|thing| thing.to_string()).collect(),
        }
    }
}

impl<T: Display> Display for Tally<T> {
    /// `0 x12, 1 x34`.
    fn fmt(&self, line: &mut fmt::Formatter) -> fmt::Result {
        let counts: Vec<String> = self
            .seen
            .iter()
            .map(|(thing, count)| format!("{thing} x{count}"))
            .collect();
        line.write_str(&counts.join(", "))
    }
}
